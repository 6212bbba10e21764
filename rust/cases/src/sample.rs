//! Records to ask about: tables in any condition, and their bytes by the format alone, with no judging.

pub use lister::{Location, Task};

pub const FULL: (u16, u16) = (0, 65_535);

/// A table of any condition, and any number of locations and tasks.
#[derive(Clone)]
pub struct Sample {
    pub version: u8,
    pub queues: u8,
    pub period: u16,
    pub locations: Vec<Location>,
    pub tasks: Vec<Task>,
}

/// A location with variable 0.
pub fn location(parent: u8, queue: u8, ticks: u16, (low, high): (u16, u16)) -> Location {
    Location { parent, queue, ticks, variable: 0, low, high }
}

/// The rules' C, D and T are `work`, `deadline` and `gap`.
pub fn task(queue: u8, work: u16, deadline: u16, gap: u16) -> Task {
    Task { queue, work, deadline, gap }
}

impl Sample {
    pub fn new(queues: u8, period: u16, locations: &[Location], tasks: &[Task]) -> Sample {
        Sample { version: 1, queues, period, locations: locations.into(), tasks: tasks.into() }
    }

    /// The sample after a change.
    pub fn with(&self, change: impl Fn(&mut Sample)) -> Sample {
        let mut sample = self.clone();
        change(&mut sample);
        sample
    }

    pub fn bytes(&self) -> Vec<u8> {
        let mut record = vec![1, 0, 4, self.version, self.queues];
        record.extend(self.period.to_be_bytes());
        for l in &self.locations {
            record.extend([2, 0, 9, l.parent, l.queue]);
            record.extend(l.ticks.to_be_bytes());
            record.push(l.variable);
            record.extend(l.low.to_be_bytes());
            record.extend(l.high.to_be_bytes());
        }
        for t in &self.tasks {
            record.extend([3, 0, 7, t.queue]);
            record.extend(t.work.to_be_bytes());
            record.extend(t.deadline.to_be_bytes());
            record.extend(t.gap.to_be_bytes());
        }
        record
    }
}

/// Table A of docs/RULES.md.
pub fn a() -> Sample {
    let locations = [location(0, 1, 1, FULL), location(0, 1, 3, (0, 99)), location(0, 2, 3, (100, 65_535))];
    Sample::new(2, 4, &locations, &[task(1, 1, 4, 4)])
}

/// Table B of docs/RULES.md.
pub fn b() -> Sample {
    let locations = [
        location(0, 0, 1, FULL),
        location(0, 1, 2, (0, 9)),
        location(0, 0, 2, (10, 65_535)),
        location(1, 0, 2, FULL),
        location(2, 1, 2, FULL),
    ];
    Sample::new(1, 5, &locations, &[])
}

/// tables/figure4.record.
pub fn figure4() -> Sample {
    let mut locations = [
        location(0, 2, 4, FULL),
        location(0, 3, 3, (0, 99)),
        location(1, 1, 5, (0, 99)),
        location(1, 1, 2, (100, 65_535)),
        location(0, 1, 2, (100, 65_535)),
        location(4, 3, 6, FULL),
        location(3, 4, 3, FULL),
    ];
    locations[1].variable = 1;
    Sample::new(4, 12, &locations, &[])
}

/// One queue, whose one tick in 1,024 is the second or the last: the longest wait of all.
pub fn slowest() -> Sample {
    let locations = [
        location(0, 0, 1, FULL),
        location(0, 1, 1, (0, 9)),
        location(0, 0, 1_022, (10, 65_535)),
        location(1, 0, 1_022, FULL),
        location(2, 1, 1, FULL),
    ];
    Sample::new(1, 1_024, &locations, &[])
}

/// One location, no task: the shortest record.
pub fn one(period: u16) -> Sample {
    Sample::new(1, period, &[location(0, 1, period, FULL)], &[])
}

/// `count` locations below one another, each of so many ticks.
pub fn chain(count: u8, ticks: u16, period: u16) -> Sample {
    let below = |v: u8| location(v.saturating_sub(1), 1, ticks, FULL);
    let locations: Vec<Location> = (0..count).map(below).collect();
    Sample::new(1, period, &locations, &[])
}

/// 128 locations and 32 tasks: the longest record.
pub fn longest() -> Sample {
    chain(128, 1, 128).with(|s| s.tasks = vec![task(1, 1, 2, 3); 32])
}

/// The bytes that are written as hexadecimal digits; anything else parts them.
pub fn hex(text: &str) -> Vec<u8> {
    let digits: Vec<u8> = text.chars().filter_map(|c| c.to_digit(16)).map(|digit| digit as u8).collect();
    digits.chunks(2).map(|pair| pair[0] * 16 + pair[1]).collect()
}
