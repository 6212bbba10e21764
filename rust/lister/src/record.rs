//! A record as bytes: reading, writing, and the question for one field
//! (docs/RULES.md, The record; Reading, writing and the field question).

use std::ops::Range;

use crate::judge::judge;
use crate::refusal::{AMOUNT, COUNT, CUT, FIELD, ROOM, Refusal, refuse_if};
use crate::table::{Location, Table, Task};

const HEADER: u8 = 1;
const LOCATION: u8 = 2;
const TASK: u8 = 3;

/// One byte tag and two bytes length.
const PREFIX: usize = 3;

/// One field as it lies in the record.
struct Field {
    tag: u8,
    payload: Range<usize>,
}

pub fn read(record: &[u8]) -> Result<Table, Refusal> {
    let table = table_of(record, &fields(record)?);
    judge(&table)?;
    Ok(table)
}

/// The offsets of field `k`'s payload.
pub fn field(record: &[u8], k: u64) -> Result<Range<usize>, Refusal> {
    read(record)?;
    let fields = fields(record)?;
    refuse_if(k >= fields.len() as u64, AMOUNT, 0)?;
    Ok(fields[k as usize].payload.clone())
}

/// The length of the record, which fills the first bytes of `out`.
pub fn write(table: &Table, out: &mut [u8]) -> Result<usize, Refusal> {
    judge(table)?;
    let record = bytes(table);
    refuse_if(out.len() < record.len(), ROOM, 0)?;
    out[..record.len()].copy_from_slice(&record);
    Ok(record.len())
}

/// All fields from the front, or the first of the refusals 1 to 3 that is met.
fn fields(record: &[u8]) -> Result<Vec<Field>, Refusal> {
    let mut fields = Vec::new();
    let mut at = 0;
    // A header and one location are needed: where the bytes stop before, a field is cut.
    while at < record.len() || fields.len() < 2 {
        let field = field_at(record, at, &fields)?;
        at = field.payload.end;
        fields.push(field);
    }
    Ok(fields)
}

/// The field that begins at offset `at`, after the fields `before`.
fn field_at(record: &[u8], at: usize, before: &[Field]) -> Result<Field, Refusal> {
    let rest = &record[at..];
    refuse_if(rest.len() < PREFIX, CUT, at)?;
    let tag = rest[0];
    let length = usize::from(number(rest, 1));
    let fits = length_of(tag) == Some(length) && may_follow(tag, before.last());
    refuse_if(!fits, FIELD, at)?;
    let alike = before.iter().filter(|field| field.tag == tag).count();
    refuse_if(alike == most_of(tag), COUNT, at)?;
    refuse_if(rest.len() < PREFIX + length, CUT, at)?;
    let payload = at + PREFIX..at + PREFIX + length;
    Ok(Field { tag, payload })
}

/// The length of a payload.
fn length_of(tag: u8) -> Option<usize> {
    match tag {
        HEADER => Some(4),
        LOCATION => Some(9),
        TASK => Some(7),
        _ => None,
    }
}

fn most_of(tag: u8) -> usize {
    match tag {
        LOCATION => Table::LOCATIONS,
        TASK => Table::TASKS,
        _ => 1,
    }
}

/// One header, then all locations, then all tasks.
fn may_follow(tag: u8, last: Option<&Field>) -> bool {
    match last.map(|field| field.tag) {
        None => tag == HEADER,
        Some(HEADER) => tag == LOCATION,
        Some(LOCATION) => tag == LOCATION || tag == TASK,
        _ => tag == TASK,
    }
}

/// The big-endian number of two bytes at `at`.
fn number(bytes: &[u8], at: usize) -> u16 {
    u16::from(bytes[at]) * 256 + u16::from(bytes[at + 1])
}

fn table_of(record: &[u8], fields: &[Field]) -> Table {
    let mut table = Table::empty();
    for field in fields {
        let payload = &record[field.payload.clone()];
        match field.tag {
            HEADER => {
                table.version = payload[0];
                table.queues = payload[1];
                table.period = number(payload, 2);
            }
            LOCATION => {
                table.locations[table.location_count] = location_of(payload);
                table.location_count += 1;
            }
            _ => {
                table.tasks[table.task_count] = task_of(payload);
                table.task_count += 1;
            }
        }
    }
    table
}

fn location_of(payload: &[u8]) -> Location {
    Location {
        parent: payload[0],
        queue: payload[1],
        ticks: number(payload, 2),
        variable: payload[4],
        low: number(payload, 5),
        high: number(payload, 7),
    }
}

fn task_of(payload: &[u8]) -> Task {
    Task {
        queue: payload[0],
        work: number(payload, 1),
        deadline: number(payload, 3),
        gap: number(payload, 5),
    }
}

fn bytes(table: &Table) -> Vec<u8> {
    let mut record = vec![HEADER, 0, 4, table.version, table.queues];
    record.extend(table.period.to_be_bytes());
    for l in table.locations() {
        record.extend([LOCATION, 0, 9, l.parent, l.queue]);
        record.extend(l.ticks.to_be_bytes());
        record.push(l.variable);
        record.extend(l.low.to_be_bytes());
        record.extend(l.high.to_be_bytes());
    }
    for t in table.tasks() {
        record.extend([TASK, 0, 7, t.queue]);
        record.extend(t.work.to_be_bytes());
        record.extend(t.deadline.to_be_bytes());
        record.extend(t.gap.to_be_bytes());
    }
    record
}
