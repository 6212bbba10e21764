//! The tables that the tests ask about, and short words to make others.

use lister::{Location, Refusal, Table, Task, read};

const A: &str = "01 0004 01 02 0004 | 02 0009 00 01 0001 00 0000 FFFF | 02 0009 00 01 0003 00 0000 0063 |
    02 0009 00 02 0003 00 0064 FFFF | 03 0007 01 0001 0004 0004";

const B: &str = "01 0004 01 01 0005 | 02 0009 00 00 0001 00 0000 FFFF | 02 0009 00 01 0002 00 0000 0009 |
    02 0009 00 00 0002 00 000A FFFF | 02 0009 01 00 0002 00 0000 FFFF | 02 0009 02 01 0002 00 0000 FFFF";

/// Figure 4 of "State-based scheduling with tree schedules", its queues counted from 1.
const FIGURE4: &str =
    "01 0004 01 04 000C | 02 0009 00 02 0004 00 0000 FFFF | 02 0009 00 03 0003 01 0000 0063 |
    02 0009 01 01 0005 00 0000 0063 | 02 0009 01 01 0002 00 0064 FFFF | 02 0009 00 01 0002 00 0064 FFFF |
    02 0009 04 03 0006 00 0000 FFFF | 02 0009 03 04 0003 00 0000 FFFF";

pub const FULL: (u16, u16) = (0, 65_535);

/// The bytes that are written as hexadecimal digits; anything else parts them.
pub fn bytes(text: &str) -> Vec<u8> {
    let digits: Vec<u8> = text.chars().filter_map(|c| c.to_digit(16)).map(|digit| digit as u8).collect();
    digits.chunks(2).map(|pair| pair[0] * 16 + pair[1]).collect()
}

pub fn record_a() -> Vec<u8> {
    bytes(A)
}

pub fn table_a() -> Table {
    read(&bytes(A)).unwrap()
}

/// Table A with another deadline of its task.
pub fn table_a_due(deadline: u16) -> Table {
    let mut table = table_a();
    table.tasks[0].deadline = deadline;
    table
}

pub fn table_b() -> Table {
    read(&bytes(B)).unwrap()
}

pub fn figure4() -> Table {
    read(&bytes(FIGURE4)).unwrap()
}

/// A location with variable 0.
pub fn location(parent: u8, queue: u8, ticks: u16, (low, high): (u16, u16)) -> Location {
    Location { parent, queue, ticks, variable: 0, low, high }
}

/// The rules' C, D and T are `work`, `deadline` and `gap`.
pub fn task(queue: u8, work: u16, deadline: u16, gap: u16) -> Task {
    Task { queue, work, deadline, gap }
}

pub fn table(queues: u8, period: u16, locations: &[Location], tasks: &[Task]) -> Table {
    let mut table = Table::empty();
    table.version = 1;
    table.queues = queues;
    table.period = period;
    table.location_count = locations.len();
    table.locations[..locations.len()].copy_from_slice(locations);
    table.task_count = tasks.len();
    table.tasks[..tasks.len()].copy_from_slice(tasks);
    table
}

/// One location that grants queue 1 all the time.
pub fn always(queues: u8, period: u16, tasks: &[Task]) -> Table {
    table(queues, period, &[location(0, 1, period, FULL)], tasks)
}

/// A refused answer.
pub fn refused<T>(number: u32, place: usize) -> Result<T, Refusal> {
    Err(Refusal { number, place })
}
