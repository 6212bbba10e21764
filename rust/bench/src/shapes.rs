//! The largest tables, one for each shape that an algorithm may find hard: P 1,024, 128 locations, 32 tasks.
//! The root is the asked queue's, so that every cycle grants it something. The least common multiple of P
//! and the gaps of each queue with tasks is 998,400.

use domvurtesz::{Location, Table, Task};

/// The queue that is asked about. All tasks are its.
pub const ASKED: u8 = 1;

const PERIOD: u16 = Table::PERIOD;
const LAST: usize = Table::LOCATIONS - 1;

/// A table by its name.
pub type Shape = (&'static str, Table);

pub fn all() -> Vec<Shape> {
    vec![
        ("star", star()),
        ("chain", chain()),
        ("comb", comb()),
        ("broom", broom()),
        ("pairs", pairs()),
        ("turns", turns()),
        ("random", random()),
    ]
}

/// The same tree, every tick of it the asked queue's, with a deadline at every tick.
pub fn dense(table: &Table) -> Table {
    let mut table = *table;
    for location in &mut table.location {
        location.queue = ASKED;
    }
    for (i, task) in table.task.iter_mut().enumerate() {
        let gap = if i < Table::TASKS - 1 { 32 } else { 31_200 };
        *task = Task { queue: ASKED, work: 1, deadline: i as u16 + 1, gap };
    }
    table
}

/// The same tree, its locations in turn the sixteen queues', each with a frequent task and a rare one.
pub fn shared(table: &Table) -> Table {
    let mut table = *table;
    let queue = |i: usize| 1 + (i % usize::from(Table::QUEUES)) as u8;
    for (v, location) in table.location.iter_mut().enumerate() {
        location.queue = queue(v);
    }
    for (i, task) in table.task.iter_mut().enumerate() {
        let gap = if i < Table::QUEUES.into() { 128 } else { 975 };
        *task = Task { queue: queue(i), work: 1, deadline: gap, gap };
    }
    table
}

/// A root of one tick with 127 leaves.
fn star() -> Table {
    table(|v| if v == 0 { (0, 1) } else { (0, PERIOD - 1) })
}

/// 128 locations of eight ticks, one below the other.
fn chain() -> Table {
    table(|v| (v.saturating_sub(1), 8))
}

/// The chain, every second location the asked queue's.
fn turns() -> Table {
    let mut table = chain();
    for (v, location) in table.location.iter_mut().enumerate() {
        location.queue = if v % 2 == 0 { ASKED } else { ASKED + 1 };
    }
    table
}

/// A spine of 64 locations; each has a leaf beside the next of the spine.
fn comb() -> Table {
    let spine = 64;
    table(|v| {
        if v < spine {
            return (v.saturating_sub(1), if v + 1 < spine { 1 } else { PERIOD - 63 });
        }
        let beside = v - spine;
        // The last location has no place beside it: it is a second leaf of the spine's first.
        let parent = if beside + 1 < spine { beside } else { 0 };
        (parent, PERIOD - parent as u16 - 1)
    })
}

/// 64 single ticks one below the other, and 64 leaves below the last.
fn broom() -> Table {
    table(|v| if v < 64 { (v.saturating_sub(1), 1) } else { (63, PERIOD - 64) })
}

/// Each location has two children, as far as the numbers go.
fn pairs() -> Table {
    let depth = |v: usize| (v + 1).ilog2() as u16;
    table(|v| {
        let ticks = if 2 * v + 1 > LAST { PERIOD - depth(v) } else { 1 };
        (v.saturating_sub(1) / 2, ticks)
    })
}

/// Leaves are cut in two, the second part becoming one to three children, until there are 128 locations.
fn random() -> Table {
    let mut places = vec![(0, PERIOD)];
    let mut leaves = vec![0];
    let mut dice = Dice(1);
    while places.len() < Table::LOCATIONS {
        let leaf = leaves.swap_remove(dice.below(leaves.len()));
        let ticks = places[leaf].1;
        if ticks < 2 {
            continue;
        }
        let first = 1 + dice.below(usize::from(ticks) - 1) as u16;
        places[leaf].1 = first;
        for _ in 0..(1 + dice.below(3)).min(Table::LOCATIONS - places.len()) {
            leaves.push(places.len());
            places.push((leaf, ticks - first));
        }
    }
    table(|v| places[v])
}

/// Numbers that look random and are the same each time.
struct Dice(u64);

impl Dice {
    fn below(&mut self, end: usize) -> usize {
        self.0 = self.0.wrapping_mul(6_364_136_223_846_793_005).wrapping_add(1_442_695_040_888_963_407);
        (self.0 >> 33) as usize % end
    }
}

/// A table of 128 locations from each one's parent and ticks; siblings share the values evenly.
fn table(place: impl Fn(usize) -> (usize, u16)) -> Table {
    let mut table = Table { version: 1, queues: Table::QUEUES, period: PERIOD, ..Table::default() };
    (table.locations, table.tasks) = (Table::LOCATIONS, Table::TASKS);
    for v in 0..Table::LOCATIONS {
        let (parent, ticks) = place(v);
        let queue = (v + usize::from(ASKED)) as u8 % 17;
        table.location[v] = Location { parent: parent as u8, queue, ticks, ..Location::default() };
    }
    table.location[0].high = u16::MAX;
    for v in 0..Table::LOCATIONS {
        share_values(&mut table, v);
    }
    for i in 0..Table::TASKS {
        table.task[i] = Task { queue: ASKED, work: 1, deadline: 31_400 + 1_000 * i as u16, gap: 62_400 };
    }
    table
}

/// Gives the values 0 to 65,535 to the children of one location, in a mixed order.
fn share_values(table: &mut Table, parent: usize) {
    let is_child = |v: &usize| usize::from(table.location[*v].parent) == parent;
    let mut children: Vec<usize> = (1..table.locations).filter(is_child).collect();
    let count = children.len();
    children.sort_by_key(|child| child * 37 % 128);
    for (i, child) in children.into_iter().enumerate() {
        table.location[child].low = (65_536 * i / count) as u16;
        table.location[child].high = (65_536 * (i + 1) / count - 1) as u16;
    }
}
