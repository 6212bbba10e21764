//! A plain judge by the library's means: gaps from guard to guard, overlaps by the sum of the widths.

use domvurtesz::{Table, Task};

/// Whether the table is well formed.
pub fn is_well_formed(table: &Table) -> bool {
    counts(table) && values(table) && shape(table) && guards(table) && period(table) && tasks(table)
}

fn counts(table: &Table) -> bool {
    (1..=Table::LOCATIONS).contains(&table.locations) && table.tasks <= Table::TASKS
}

fn values(table: &Table) -> bool {
    table.version == 1
        && (1..=Table::QUEUES).contains(&table.queues)
        && (1..=Table::PERIOD).contains(&table.period)
        && table.counted_locations().iter().all(|l| {
            (1..=Table::PERIOD).contains(&l.ticks)
                && l.queue <= table.queues
                && l.variable < Table::VARIABLES
                && l.low <= l.high
        })
}

fn shape(table: &Table) -> bool {
    let root = &table.location[0];
    let placed = |v: usize| usize::from(table.location[v].parent) < v;
    root.parent == 0
        && (root.low, root.high) == (0, u16::MAX)
        && (1..table.locations).all(placed)
        && (0..table.locations).all(|v| table.location[v].variable == 0 || !is_leaf(table, v))
}

pub fn is_leaf(table: &Table, v: usize) -> bool {
    table.counted_locations()[1..].iter().all(|l| usize::from(l.parent) != v)
}

fn guards(table: &Table) -> bool {
    let inner = |v: &usize| !is_leaf(table, *v);
    (0..table.locations).filter(inner).all(|v| has_no_gap(table, v))
        && (0..table.locations).all(|v| widths(table, v) <= 65_536)
}

fn has_no_gap(table: &Table, v: usize) -> bool {
    let mut value = 0;
    loop {
        let Some(child) = child(table, v, value) else {
            return false;
        };
        let high = table.location[child].high;
        if high == u16::MAX {
            return true;
        }
        value = high + 1;
    }
}

/// The child of `v` whose guard holds the value.
pub fn child(table: &Table, v: usize, value: u16) -> Option<usize> {
    (1..table.locations).find(|&u| {
        let l = &table.location[u];
        usize::from(l.parent) == v && l.low <= value && value <= l.high
    })
}

fn widths(table: &Table, v: usize) -> u32 {
    let children = table.counted_locations()[1..].iter().filter(|l| usize::from(l.parent) == v);
    children.map(|l| u32::from(l.high) - u32::from(l.low) + 1).sum()
}

fn period(table: &Table) -> bool {
    let mut ends = [0; Table::LOCATIONS];
    for (v, l) in table.counted_locations().iter().enumerate() {
        let before = if v == 0 { 0 } else { ends[usize::from(l.parent)] };
        ends[v] = before + u32::from(l.ticks);
    }
    (0..table.locations).all(|v| ends[v] == u32::from(table.period) || !is_leaf(table, v))
}

fn tasks(table: &Table) -> bool {
    let lawful = |t: &Task| {
        (1..=table.queues).contains(&t.queue) && 1 <= t.work && t.work <= t.deadline && t.deadline <= t.gap
    };
    table.counted_tasks().iter().all(lawful)
}
