//! A plain reader and a plain writer of records, with the judge of this program.

use crate::judge::is_well_formed;
use domvurtesz::{Location, Table, Task};

const HEADER: [u8; 3] = [1, 0, 4];
const LOCATION: [u8; 3] = [2, 0, 9];
const TASK: [u8; 3] = [3, 0, 7];

/// Nothing where the record is refused.
pub fn read(record: &[u8]) -> Option<Table> {
    let (header, mut rest) = payload::<4>(record, HEADER)?;
    let [version, queues, period @ ..] = *header;
    let mut table = Table { version, queues, period: u16::from_be_bytes(period), ..Table::default() };
    while let Some((payload, after)) = payload(rest, LOCATION) {
        *table.location.get_mut(table.locations)? = location(payload);
        table.locations += 1;
        rest = after;
    }
    while let Some((payload, after)) = payload(rest, TASK) {
        *table.task.get_mut(table.tasks)? = task(payload);
        table.tasks += 1;
        rest = after;
    }
    (rest.is_empty() && is_well_formed(&table)).then_some(table)
}

/// The payload of a field with this front, and what comes after it.
fn payload<const LENGTH: usize>(bytes: &[u8], front: [u8; 3]) -> Option<(&[u8; LENGTH], &[u8])> {
    bytes.strip_prefix(&front)?.split_first_chunk()
}

fn location(&[parent, queue, t0, t1, variable, l0, l1, h0, h1]: &[u8; 9]) -> Location {
    let [ticks, low, high] = [[t0, t1], [l0, l1], [h0, h1]].map(u16::from_be_bytes);
    Location { parent, queue, ticks, variable, low, high }
}

fn task(&[queue, w0, w1, d0, d1, g0, g1]: &[u8; 7]) -> Task {
    let [work, deadline, gap] = [[w0, w1], [d0, d1], [g0, g1]].map(u16::from_be_bytes);
    Task { queue, work, deadline, gap }
}

/// The record's length; nothing where the table is refused or the buffer is too short.
pub fn write(table: &Table, out: &mut [u8]) -> Option<usize> {
    let length = 7 + 12 * table.locations + 10 * table.tasks;
    if !is_well_formed(table) || out.len() < length {
        return None;
    }
    let [p0, p1] = table.period.to_be_bytes();
    let mut rest = put(out, HEADER, [table.version, table.queues, p0, p1]);
    for l in table.counted_locations() {
        let [[t0, t1], [l0, l1], [h0, h1]] = [l.ticks, l.low, l.high].map(u16::to_be_bytes);
        rest = put(rest, LOCATION, [l.parent, l.queue, t0, t1, l.variable, l0, l1, h0, h1]);
    }
    for t in table.counted_tasks() {
        let [[w0, w1], [d0, d1], [g0, g1]] = [t.work, t.deadline, t.gap].map(u16::to_be_bytes);
        rest = put(rest, TASK, [t.queue, w0, w1, d0, d1, g0, g1]);
    }
    Some(length)
}

/// Puts one field and hands back the rest of the buffer.
fn put<const LENGTH: usize>(out: &mut [u8], front: [u8; 3], payload: [u8; LENGTH]) -> &mut [u8] {
    let (field, rest) = out.split_at_mut(front.len() + LENGTH);
    field[..front.len()].copy_from_slice(&front);
    field[front.len()..].copy_from_slice(&payload);
    rest
}
