//! Random tasks whose demand is close to what the tree is sure to give, so that verdicts are near the edge.

use lister::bounds::Supply;
use lister::demand::tasks_of;
use lister::{Table, Task};

use crate::random::Random;

/// Gaps with small multiples in common, the period's own among them.
pub fn small_gaps(period: u16) -> Vec<u16> {
    let short = [1, 2, 3, 4, 5, 6, 8, 9, 10, 12, 15, 16, 18, 20, 24, 30, 36, 48];
    let long = [1, 2, 3, 4, 5, 6, 8, 10, 12].map(|times| times * period);
    [&short[..], &long, &long].concat()
}

/// Gaps whose multiples with 1,024 are divisors of 998,400.
pub const LARGE: [u16; 16] = [
    1_024, 1_280, 1_300, 1_536, 2_560, 3_120, 4_800, 5_200, 6_400, 9_600, 15_600, 19_200, 24_960, 38_400,
    49_920, 62_400,
];

/// How often a deadline is looked for within which the queue is sure of something.
const TRIES: usize = 4;

/// Adds a task of the queue with one of these gaps; mostly none where the queue is sure of nothing more.
pub fn add(random: &mut Random, table: &mut Table, queue: u8, least: &Supply, gaps: &[u16]) {
    let mut task = Task { queue, ..Task::default() };
    let mut sure = 0;
    for _ in 0..TRIES {
        task.gap = random.pick(gaps);
        task.deadline = if random.one_in(3) { task.gap } else { random.within(1, task.gap) };
        sure = least.at(task.deadline.into()) as i64 - demand(table, queue, task.deadline);
        if sure > 0 {
            break;
        }
    }
    if sure <= 0 && !random.one_in(4) {
        return;
    }
    let work = match random.below(12) {
        0 => random.within(1, task.deadline).into(),
        1 => sure + 1,
        2..=4 => sure - 1,
        _ => sure,
    };
    task.work = work.clamp(1, task.deadline.into()) as u16;
    put(table, task);
}

/// Adds two tasks whose gaps have a least common multiple of 999,999, 1,000,000 or 1,001,000, so that a
/// period which divides it is at the horizon.
pub fn add_at_horizon(random: &mut Random, table: &mut Table) {
    let queue = random.within(1, table.queues.into()) as u8;
    let (first, second) = random.pick(&[(999, 1_001), (64, 15_625), (8_000, 15_625), (1_000, 1_001)]);
    for gap in [first, second] {
        put(table, Task { queue, work: 1, deadline: gap, gap });
    }
}

/// Adds a task with any numbers that are allowed.
pub fn add_any(random: &mut Random, table: &mut Table) {
    let queue = random.within(1, table.queues.into()) as u8;
    let gap = if random.one_in(4) { u16::MAX } else { random.within(1, u16::MAX) };
    let deadline = random.within(1, gap);
    let work = random.within(1, deadline);
    put(table, Task { queue, work, deadline, gap });
}

fn put(table: &mut Table, task: Task) {
    table.tasks[table.task_count] = task;
    table.task_count += 1;
}

/// What the queue's tasks so far ask for within a window.
fn demand(table: &Table, queue: u8, window: u16) -> i64 {
    let due = |task: &Task| match window.checked_sub(task.deadline) {
        Some(after) => i64::from(task.work) * (i64::from(after / task.gap) + 1),
        None => 0,
    };
    tasks_of(table, queue).iter().map(due).sum()
}
