//! Records and tables that are damaged in one or a few places, and tables with any number anywhere.

use lister::{Location, Table, Task};

use crate::random::Random;

/// A table as the fields of its record, with no judging.
pub fn fields(table: &Table) -> Vec<Vec<u8>> {
    let header = [&[1, 0, 4, table.version, table.queues][..], &table.period.to_be_bytes()].concat();
    let locations = table.locations().iter().map(|l| {
        let front = [2, 0, 9, l.parent, l.queue];
        let [ticks, low, high] = [l.ticks, l.low, l.high].map(u16::to_be_bytes);
        [&front[..], &ticks, &[l.variable], &low, &high].concat()
    });
    let tasks = table.tasks().iter().map(|t| {
        let numbers = [t.work, t.deadline, t.gap].map(u16::to_be_bytes);
        [&[3, 0, 7, t.queue][..], &numbers.concat()].concat()
    });
    std::iter::once(header).chain(locations).chain(tasks).collect()
}

/// The table's record after one to three damages.
pub fn record(random: &mut Random, table: &Table) -> Vec<u8> {
    let mut fields = fields(table);
    let damages = random.below(3);
    for _ in 0..damages {
        disorder(random, &mut fields);
    }
    let mut bytes = fields.concat();
    if damages == 0 || random.one_in(3) {
        spoil(random, &mut bytes);
    }
    bytes
}

fn disorder(random: &mut Random, fields: &mut Vec<Vec<u8>>) {
    let (i, j) = (random.below(fields.len()), random.below(fields.len()));
    match random.below(7) {
        0 => fields.swap(i, j),
        1 => fields.insert(j, fields[i].clone()),
        2 => fields.push(fields[i].clone()),
        3 if fields.len() > 1 => drop(fields.remove(i)),
        4 | 5 => {
            // In the tag or in the length.
            let at = random.below(fields[i].len().min(3));
            nudge_byte(random, &mut fields[i][at]);
        }
        _ => {
            let kept = 1 + random.below(fields[i].len());
            fields.push(fields[i][..kept].to_vec());
        }
    }
}

fn spoil(random: &mut Random, bytes: &mut Vec<u8>) {
    let at = random.below(bytes.len().max(1));
    match random.below(4) {
        0 => bytes.truncate(at),
        1 if !bytes.is_empty() => bytes[at] ^= 1 << random.below(8),
        2 if !bytes.is_empty() => bytes[at] = random.any() as u8,
        _ => bytes.extend((0..1 + random.below(14)).map(|_| random.pick(&[0, 2, 3, 7, 9, 10, 255]))),
    }
}

/// Changes one number, its counts included, of a table with a location.
pub fn nudge(random: &mut Random, table: &mut Table) {
    let location = &mut table.locations[random.below(table.location_count.clamp(1, Table::LOCATIONS))];
    let task = &mut table.tasks[random.below(table.task_count.clamp(1, Table::TASKS))];
    match random.below(16) {
        0 => nudge_byte(random, &mut table.version),
        1 => nudge_byte(random, &mut table.queues),
        2 => nudge_number(random, &mut table.period),
        3 => table.location_count = count(random),
        4 => table.task_count = count(random),
        5 => nudge_byte(random, &mut location.parent),
        6 => nudge_byte(random, &mut location.queue),
        7 | 8 => nudge_number(random, &mut location.ticks),
        9 => nudge_byte(random, &mut location.variable),
        10 => nudge_number(random, &mut location.low),
        11 => nudge_number(random, &mut location.high),
        12 => nudge_byte(random, &mut task.queue),
        13 => nudge_number(random, &mut task.work),
        14 => nudge_number(random, &mut task.deadline),
        _ => nudge_number(random, &mut task.gap),
    }
}

fn nudge_byte(random: &mut Random, byte: &mut u8) {
    *byte = random.odd((*byte).into()) as u8;
}

fn nudge_number(random: &mut Random, number: &mut u16) {
    *number = random.odd(*number);
}

/// A number of locations or tasks, often far out of range.
fn count(random: &mut Random) -> usize {
    let any = random.any() as usize;
    random.pick(&[0, 1, 2, 32, 33, 127, 128, 129, 256, 65_537, 1 << 32, usize::MAX, any])
}

/// Any number in every field and every entry.
pub fn scrambled(random: &mut Random) -> Table {
    let mut table = Table::empty();
    (table.version, table.queues) = (random.below(3) as u8, random.any() as u8);
    table.period = random.any() as u16;
    (table.location_count, table.task_count) = (count(random), count(random));
    litter(random, &mut table, 0, 0);
    table
}

/// Any numbers in the entries past the counts, which mean nothing.
pub fn litter_past(random: &mut Random, table: &mut Table) {
    let (locations, tasks) = (table.locations().len(), table.tasks().len());
    litter(random, table, locations, tasks);
}

fn litter(random: &mut Random, table: &mut Table, locations: usize, tasks: usize) {
    for entry in &mut table.locations[locations..] {
        let [parent, queue, variable, ..] = random.any().to_be_bytes();
        let [ticks, low, high] = [(); 3].map(|()| random.any() as u16);
        *entry = Location { parent, queue, ticks, variable, low, high };
    }
    for entry in &mut table.tasks[tasks..] {
        let [work, deadline, gap] = [(); 3].map(|()| random.any() as u16);
        *entry = Task { queue: random.any() as u8, work, deadline, gap };
    }
}
