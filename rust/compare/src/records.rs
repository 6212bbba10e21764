//! Records, whole and damaged: reading them, asking for their fields, and writing what was read.

use domvurtesz::answers::{self, ReadAnswer, Told};
use domvurtesz::{Location, Table, Task};

use crate::both::{self, record_in_hex};
use crate::random::Random;
use crate::tally::{Difference, Tally};
use crate::{damage, expected, tables};

/// Damaged forms of each record.
const DAMAGED: usize = 10;
/// Fields asked for of a record that is whole.
const FIELDS: usize = 4;

/// One table's record: whole, damaged, and with a number changed.
pub fn table(random: &mut Random, tally: &mut Tally) -> Result<(), Difference> {
    let mut table = if random.one_in(8) { tables::full(random) } else { tables::small(random) };
    let whole = damage::fields(&table).concat();
    ask(random, tally, &whole, FIELDS)?;
    both::about(&table, tally, |both| {
        let shorter = random.below(whole.len());
        let lengths = [whole.len(), whole.len() - 1, shorter, whole.len() + shorter];
        lengths.into_iter().try_for_each(|length| both.write(length))
    })?;
    for _ in 0..DAMAGED {
        let damaged = damage::record(random, &table);
        ask(random, tally, &damaged, 1)?;
    }
    damage::nudge(random, &mut table);
    ask(random, tally, &damage::fields(&table).concat(), 1)
}

/// Reads the record and asks for some of its fields.
fn ask(random: &mut Random, tally: &mut Tally, record: &[u8], fields: usize) -> Result<(), Difference> {
    let mut answer = || {
        read(tally, record)?;
        (0..fields).try_for_each(|_| field(tally, record, number_of_field(random, record)))
    };
    answer().map_err(|difference| difference.about(&record_in_hex(record)))
}

/// Mostly of a field that there is.
fn number_of_field(random: &mut Random, record: &[u8]) -> usize {
    let about = record.len() / 10;
    let far = random.pick(&[about, about + 1, 161, 162, 65_536, 1 << 32, usize::MAX]);
    if random.one_in(4) { far } else { random.below(about + 1) }
}

fn read(tally: &mut Tally, record: &[u8]) -> Result<(), Difference> {
    let answer = answers::read(record);
    let owed = expected::read(lister::read(record));
    tally.same("read", format_args!(""), every_entry(answer), every_entry(owed))
}

type Numbers = (u8, u8, u16, usize, usize);
type Entries = ([Location; Table::LOCATIONS], [Task; Table::TASKS]);

/// What is past the counts too, which an equality of tables leaves out.
fn every_entry(answer: ReadAnswer) -> (Told, (Numbers, Entries)) {
    let Table { version, queues, period, locations, tasks, location, task } = answer.table;
    (answer.refusal, ((version, queues, period, locations, tasks), (location, task)))
}

/// The answer, and the part that the wrapper makes of it.
fn field(tally: &mut Tally, record: &[u8], k: usize) -> Result<(), Difference> {
    let listed = lister::field(record, k as u64);
    let expected = listed.clone().ok().map(|range| record[range].as_ptr_range());
    let part = domvurtesz::field(record, k).ok().map(<[u8]>::as_ptr_range);
    let owed = (expected::field(listed), expected);
    tally.same("field", format_args!("{k}"), (answers::field(record, k), part), owed)
}
