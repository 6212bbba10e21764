//! A table as a value, in any condition, and the words about its tree: child, leaf, path
//! (docs/RULES.md, Tables; Locations and guards).

/// One place of the tree: whose ticks these are, and which values of the parent's variable lead here.
#[derive(Clone, Copy, Debug, Default, PartialEq, Eq)]
pub struct Location {
    pub parent: u8,
    pub queue: u8,
    pub ticks: u16,
    pub variable: u8,
    pub low: u16,
    pub high: u16,
}

/// Messages of one queue. The rules' C is `work`, D is `deadline`, T is `gap`.
#[derive(Clone, Copy, Debug, Default, PartialEq, Eq)]
pub struct Task {
    pub queue: u8,
    pub work: u16,
    pub deadline: u16,
    pub gap: u16,
}

/// Nothing is promised about the numbers, the counts included: `judge` decides.
#[derive(Clone, Debug)]
pub struct Table {
    pub version: u8,
    pub queues: u8,
    pub period: u16,
    pub location_count: usize,
    pub locations: [Location; Table::LOCATIONS],
    pub task_count: usize,
    pub tasks: [Task; Table::TASKS],
}

impl Table {
    pub const LOCATIONS: usize = 128;
    pub const TASKS: usize = 32;
    pub const QUEUES: u8 = 16;
    pub const PERIOD: u16 = 1_024;
    pub const VARIABLES: u8 = 8;

    /// All zeros.
    pub fn empty() -> Table {
        Table {
            version: 0,
            queues: 0,
            period: 0,
            location_count: 0,
            locations: [Location::default(); Table::LOCATIONS],
            task_count: 0,
            tasks: [Task::default(); Table::TASKS],
        }
    }

    /// The locations that count.
    pub fn locations(&self) -> &[Location] {
        &self.locations[..self.location_count.min(Table::LOCATIONS)]
    }

    /// The tasks that count.
    pub fn tasks(&self) -> &[Task] {
        &self.tasks[..self.task_count.min(Table::TASKS)]
    }

    /// The other locations that name `parent` as their parent. The root is nobody's child.
    pub fn children(&self, parent: usize) -> Vec<usize> {
        (1..self.locations().len())
            .filter(|&v| v != parent && usize::from(self.locations[v].parent) == parent)
            .collect()
    }

    pub fn is_leaf(&self, location: usize) -> bool {
        self.children(location).is_empty()
    }

    pub fn leaves(&self) -> Vec<usize> {
        (0..self.locations().len()).filter(|&v| self.is_leaf(v)).collect()
    }

    /// From the root to `location`. Ends only where every parent is below its child.
    pub fn path(&self, location: usize) -> Vec<usize> {
        if location == 0 {
            return vec![0];
        }
        let mut path = self.path(usize::from(self.locations[location].parent));
        path.push(location);
        path
    }
}

/// Entries past the counts mean nothing and are not compared.
impl PartialEq for Table {
    fn eq(&self, other: &Table) -> bool {
        self.version == other.version
            && self.queues == other.queues
            && self.period == other.period
            && self.location_count == other.location_count
            && self.locations() == other.locations()
            && self.task_count == other.task_count
            && self.tasks() == other.tasks()
    }
}

impl Eq for Table {}
