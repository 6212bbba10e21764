//! A table as a value, in any condition, and its judge (docs/RULES.md, Tables).

use crate::ffi;
use crate::refusal::Refusal;

/// One place of the tree: whose ticks these are, and which values of the parent's variable lead here.
#[repr(C)]
#[derive(Clone, Copy, Debug, Default, PartialEq, Eq, Hash)]
pub struct Location {
    pub parent: u8,
    pub queue: u8,
    pub ticks: u16,
    pub variable: u8,
    pub low: u16,
    pub high: u16,
}

/// Messages of one queue. The rules' C is `work`, D is `deadline`, T is `gap`.
#[repr(C)]
#[derive(Clone, Copy, Debug, Default, PartialEq, Eq, Hash)]
pub struct Task {
    pub queue: u8,
    pub work: u16,
    pub deadline: u16,
    pub gap: u16,
}

/// `locations` and `tasks` say how many entries of `location` and `task` count; what lies past them means
/// nothing.
#[repr(C)]
#[derive(Clone, Copy, Debug)]
pub struct Table {
    pub version: u8,
    pub queues: u8,
    pub period: u16,
    pub locations: usize,
    pub tasks: usize,
    pub location: [Location; Table::LOCATIONS],
    pub task: [Task; Table::TASKS],
}

impl Table {
    pub const LOCATIONS: usize = 128;
    pub const TASKS: usize = 32;
    pub const QUEUES: u8 = 16;
    pub const PERIOD: u16 = 1_024;
    pub const VARIABLES: u8 = 8;

    /// Nothing for a well-formed table, else why it is none.
    pub fn judge(&self) -> Result<(), Refusal> {
        ffi::judge(*self).unless_refused(())
    }

    /// The locations that count.
    pub fn counted_locations(&self) -> &[Location] {
        &self.location[..self.locations.min(Table::LOCATIONS)]
    }

    /// The tasks that count.
    pub fn counted_tasks(&self) -> &[Task] {
        &self.task[..self.tasks.min(Table::TASKS)]
    }
}

/// All zeros.
impl Default for Table {
    fn default() -> Table {
        Table {
            version: 0,
            queues: 0,
            period: 0,
            locations: 0,
            tasks: 0,
            location: [Location::default(); Table::LOCATIONS],
            task: [Task::default(); Table::TASKS],
        }
    }
}

/// Tables that differ only in entries past the counts are the same table.
impl PartialEq for Table {
    fn eq(&self, other: &Table) -> bool {
        let numbers = |t: &Table| (t.version, t.queues, t.period, t.locations, t.tasks);
        numbers(self) == numbers(other)
            && self.counted_locations() == other.counted_locations()
            && self.counted_tasks() == other.counted_tasks()
    }
}

impl Eq for Table {}
