//! Reading, writing and the field question, with the refusals 1 to 3, AMOUNT and ROOM.

use lister::refusal::{AMOUNT, COUNT, CUT, FIELD, GAP, PERIOD, ROOM, TASK, VALUE};
use lister::{Table, field, read, write};

use crate::random::Random;
use crate::samples::{FULL, always, bytes, location, record_a, refused, table, table_a, task};

fn written(table: &Table) -> Vec<u8> {
    let mut out = vec![0; 2_048];
    let length = write(table, &mut out).unwrap();
    out.truncate(length);
    out
}

/// 128 locations and 32 tasks: a chain of one tick each.
fn longest() -> Vec<u8> {
    let mut chain = vec![location(0, 1, 1, FULL)];
    for parent in 0..127 {
        chain.push(location(parent, 1, 1, FULL));
    }
    written(&table(1, 128, &chain, &[task(1, 1, 2, 3); 32]))
}

fn longer(record: &[u8], more: &str) -> Vec<u8> {
    [record, &bytes(more)].concat()
}

#[test]
fn a_record_is_read_as_its_table() {
    let table = table_a();
    assert_eq!((table.version, table.queues, table.period), (1, 2, 4));
    let locations = [location(0, 1, 1, FULL), location(0, 1, 3, (0, 99)), location(0, 2, 3, (100, 65_535))];
    assert_eq!(table.locations(), locations);
    assert_eq!(table.tasks(), [task(1, 1, 4, 4)]);
    assert_eq!(table.locations[3..], Table::empty().locations[3..]);
    assert_eq!(table.tasks[1..], Table::empty().tasks[1..]);
    assert_eq!(read(&longest()).unwrap().location_count, 128);
    assert_eq!(longest().len(), 1_863);
}

#[test]
fn a_record_cut_anywhere_is_refused_at_its_last_field() {
    let record = record_a();
    for length in 0..record.len() {
        let expected = match length {
            0..7 => refused(CUT, 0),
            7..19 => refused(CUT, 7),
            19 => refused(PERIOD, 1),
            20..31 => refused(CUT, 19),
            31 => refused(GAP, 1),
            32..43 => refused(CUT, 31),
            43 => Ok(0),
            _ => refused(CUT, 43),
        };
        assert_eq!(read(&record[..length]).map(|table| table.task_count), expected, "{length} bytes");
    }
}

#[test]
fn fields_stand_in_order() {
    let a = record_a();
    let (header, root, task) = (&a[..7], &a[7..19], &a[43..]);
    assert_eq!(read(&[header, task, root].concat()), refused(FIELD, 7));
    assert_eq!(read(&[header, header, root].concat()), refused(FIELD, 7));
    assert_eq!(read(&[root, header].concat()), refused(FIELD, 0));
    assert_eq!(read(&[&a, root].concat()), refused(FIELD, 53));
    assert_eq!(read(&[&a, header].concat()), refused(FIELD, 53));
    assert_eq!(read(&bytes("04 0004 01 02 0004")), refused(FIELD, 0));
    assert_eq!(read(&bytes("00 0000")), refused(FIELD, 0));
    assert_eq!(read(&bytes("01 0005 01 02 0004")), refused(FIELD, 0));
    assert_eq!(read(&longer(header, "02 0008 00")), refused(FIELD, 7));
    assert_eq!(read(&longer(&a, "03 0107")), refused(FIELD, 53));
}

#[test]
fn stray_bytes_are_a_cut_field() {
    for record in [record_a(), longest()] {
        let end = record.len();
        assert_eq!(read(&longer(&record, "0A")), refused(CUT, end));
        assert_eq!(read(&longer(&record, "FF FF")), refused(CUT, end));
        assert_eq!(read(&longer(&record, "FF FF FF")), refused(FIELD, end));
    }
}

#[test]
fn too_many_fields_are_a_count() {
    let longest = longest();
    let locations = 7 + 128 * 12;
    assert_eq!(read(&longer(&longest[..locations], "02 0009")), refused(COUNT, 1_543));
    assert_eq!(read(&longer(&longest[..locations - 12], "02 0009")), refused(CUT, 1_531));
    assert_eq!(read(&longer(&longest, "03 0007")), refused(COUNT, 1_863));
    assert_eq!(read(&longer(&longest[..1_853], "03 0007")), refused(CUT, 1_853));
    assert_eq!(read(&longer(&longest, "02 0009")), refused(FIELD, 1_863));
    // What is met first counts: the faults of the bytes behind are not seen.
    assert_eq!(read(&longer(&longest, "03 0007 FF FF FF FF FF FF FF 99")), refused(COUNT, 1_863));
}

#[test]
fn a_fault_of_the_fields_hides_every_other() {
    let mut record = record_a();
    record[3] = 9;
    assert_eq!(read(&record), refused(VALUE, 0));
    record.push(0);
    assert_eq!(read(&record), refused(CUT, 53));
}

#[test]
fn the_first_2048_bytes_decide_the_same() {
    for more in ["", "03 0007", "02 0009", "00"] {
        let mut record = longer(&longest(), more);
        record.resize(3_000, 0);
        assert!(read(&record).is_err());
        assert_eq!(read(&record), read(&record[..2_048]));
    }
}

#[test]
fn a_field_is_where_it_lies() {
    let a = record_a();
    assert_eq!(field(&a, 0), Ok(3..7));
    assert_eq!(field(&a, 1), Ok(10..19));
    assert_eq!(field(&a, 3), Ok(34..43));
    assert_eq!(field(&a, 4), Ok(46..53));
    assert_eq!(field(&a, 5), refused(AMOUNT, 0));
    assert_eq!(field(&a, u64::MAX), refused(AMOUNT, 0));
    assert_eq!(field(&a[..52], 99), refused(CUT, 43));
    assert_eq!(field(&a[..19], 99), refused(PERIOD, 1));
}

#[test]
fn writing_leaves_what_is_past_the_record() {
    let mut out = [7; 60];
    assert_eq!(write(&table_a(), &mut out), Ok(53));
    assert_eq!(out[..53], record_a());
    assert_eq!(out[53..], [7; 7]);
}

#[test]
fn a_refused_writing_writes_nothing() {
    let mut short = [7; 52];
    assert_eq!(write(&table_a(), &mut short), refused(ROOM, 0));
    assert_eq!(short, [7; 52]);
    let mut bad = table_a();
    bad.tasks[0].work = 0;
    assert_eq!(write(&bad, &mut short), refused(TASK, 4));
    assert_eq!(short, [7; 52]);
}

#[test]
fn written_and_read_tables_are_the_same() {
    let mut random = Random::new(1);
    for _ in 0..200 {
        let table = random.table(40, 20, 32, 60_000);
        let record = written(&table);
        assert_eq!(record.len(), 7 + 12 * table.location_count + 10 * table.task_count);
        let again = read(&record).unwrap();
        assert_eq!(again, table);
        assert_eq!(written(&again), record);
    }
}

#[test]
fn entries_past_the_counts_are_not_compared() {
    let mut other = always(1, 1, &[]);
    other.locations[1].ticks = 5;
    other.tasks[0].gap = 5;
    assert_eq!(other, always(1, 1, &[]));
    other.task_count = 1;
    assert_ne!(other, always(1, 1, &[]));
}
