//! Whether a table is well formed: the refusals 3 to 9, lowest number first, then lowest place
//! (docs/RULES.md, Refusals). Guards are judged by trying all 65,536 values.

use crate::refusal::{AMOUNT, COUNT, GAP, OVERLAP, PERIOD, QUEUE, Refusal, SHAPE, TASK, VALUE, refuse_if};
use crate::table::{Location, Table, Task};

const LONGEST_WINDOW: u64 = 2_000_000;

/// The place where a rule is broken, if it is.
type Rule = fn(&Table) -> Option<usize>;

/// In this order each rule may rely on those before it: no path is walked before its parents are in shape.
const RULES: [(u32, Rule); 7] = [
    (COUNT, count),
    (VALUE, value),
    (SHAPE, shape),
    (GAP, gap),
    (OVERLAP, overlap),
    (PERIOD, period),
    (TASK, task),
];

pub fn judge(table: &Table) -> Result<(), Refusal> {
    for (number, rule) in RULES {
        if let Some(place) = rule(table) {
            return Err(Refusal { number, place });
        }
    }
    Ok(())
}

/// The queue asked about, once the table is judged.
pub fn judge_queue(table: &Table, queue: u64) -> Result<u8, Refusal> {
    judge(table)?;
    refuse_if(queue == 0 || queue > u64::from(table.queues), QUEUE, 0)?;
    Ok(queue as u8)
}

/// The queue asked about, once the table, the queue and the window are judged.
pub fn judge_window(table: &Table, queue: u64, window: u64) -> Result<u8, Refusal> {
    let queue = judge_queue(table, queue)?;
    refuse_if(window > LONGEST_WINDOW, AMOUNT, 0)?;
    Ok(queue)
}

fn location_field(location: usize) -> usize {
    location + 1
}

fn count(table: &Table) -> Option<usize> {
    let good = (1..=Table::LOCATIONS).contains(&table.location_count)
        && (0..=Table::TASKS).contains(&table.task_count);
    if good { None } else { Some(0) }
}

fn value(table: &Table) -> Option<usize> {
    let good_header = table.version == 1
        && (1..=Table::QUEUES).contains(&table.queues)
        && (1..=Table::PERIOD).contains(&table.period);
    if !good_header {
        return Some(0);
    }
    let good = |l: &Location| {
        (1..=Table::PERIOD).contains(&l.ticks)
            && l.queue <= table.queues
            && l.variable < Table::VARIABLES
            && l.low <= l.high
    };
    let broken = table.locations().iter().position(|l| !good(l));
    broken.map(location_field)
}

fn shape(table: &Table) -> Option<usize> {
    let good = |v: usize| {
        let l = &table.locations[v];
        let placed = match v {
            0 => l.parent == 0 && l.low == 0 && l.high == u16::MAX,
            _ => usize::from(l.parent) < v,
        };
        placed && (l.variable == 0 || !table.is_leaf(v))
    };
    let broken = (0..table.location_count).find(|&v| !good(v));
    broken.map(location_field)
}

/// For each value from 0 to 65,535 the number of children whose guard holds it.
fn holders(table: &Table, children: &[usize]) -> Vec<u8> {
    let mut holders = vec![0u8; usize::from(u16::MAX) + 1];
    for &child in children {
        let Location { low, high, .. } = table.locations[child];
        for held in &mut holders[usize::from(low)..=usize::from(high)] {
            *held = held.saturating_add(1);
        }
    }
    holders
}

/// The lowest parent whose children's guards hold the values badly.
fn guards(table: &Table, is_bad: impl Fn(&[u8]) -> bool) -> Option<usize> {
    let broken = (0..table.location_count).find(|&parent| {
        let children = table.children(parent);
        !children.is_empty() && is_bad(&holders(table, &children))
    });
    broken.map(location_field)
}

fn gap(table: &Table) -> Option<usize> {
    guards(table, |holders| holders.contains(&0))
}

fn overlap(table: &Table) -> Option<usize> {
    guards(table, |holders| holders.iter().copied().fold(0, u8::max) >= 2)
}

fn period(table: &Table) -> Option<usize> {
    let ticks = |v: usize| u64::from(table.locations[v].ticks);
    let broken = table.leaves().into_iter().find(|&leaf| {
        let sum: u64 = table.path(leaf).into_iter().map(ticks).sum();
        sum != u64::from(table.period)
    });
    broken.map(location_field)
}

fn task(table: &Table) -> Option<usize> {
    let good = |t: &Task| {
        (1..=table.queues).contains(&t.queue) && 1 <= t.work && t.work <= t.deadline && t.deadline <= t.gap
    };
    let broken = table.tasks().iter().position(|t| !good(t));
    broken.map(|i| table.location_count + 1 + i)
}
