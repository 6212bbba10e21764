//! Least and most as they are defined: every run is listed, and every window in it is counted
//! (docs/RULES.md, Runs and bounds). Only small trees can be done so.

use crate::table::Table;

/// Which of the two bounds is meant.
#[derive(Clone, Copy, Debug)]
pub enum Side {
    Least,
    Most,
}

impl Side {
    /// The smallest or the largest of some counts. A table has a run, so there is one.
    pub fn of(self, counts: impl Iterator<Item = u64>) -> u64 {
        let bound = match self {
            Side::Least => counts.min(),
            Side::Most => counts.max(),
        };
        bound.expect("something is counted")
    }
}

/// Each path from the root to a leaf, as the queue of each of its ticks.
pub fn paths(table: &Table) -> Vec<Vec<u8>> {
    let ticks_of = |v: usize| vec![table.locations[v].queue; table.locations[v].ticks.into()];
    let whole = |leaf| table.path(leaf).into_iter().flat_map(ticks_of).collect();
    table.leaves().into_iter().map(whole).collect()
}

/// How many of these ticks belong to `queue`.
pub fn count(ticks: &[u8], queue: u8) -> u64 {
    ticks.iter().filter(|&&owner| owner == queue).count() as u64
}

/// Every run of so many cycles, as the queue of each tick. Any path may follow any path.
pub fn runs(table: &Table, cycles: usize) -> Vec<Vec<u8>> {
    let paths = paths(table);
    let mut runs = vec![Vec::new()];
    for _ in 0..cycles {
        let mut longer = Vec::new();
        for run in &runs {
            for path in &paths {
                longer.push([&run[..], path].concat());
            }
        }
        runs = longer;
    }
    runs
}

/// Whether listing is quick: a window below 2P ticks lies within three cycles, so in one of at most 216 runs.
pub fn is_small(table: &Table) -> bool {
    table.period <= 24 && table.leaves().len() <= 6
}

/// The least or most ticks of `queue` in a window, over every run and every start in its first cycle.
/// What follows a cycle is a run again, so a start in a later cycle shows nothing new.
pub fn bound(table: &Table, queue: u8, window: usize, side: Side) -> u64 {
    let period = usize::from(table.period);
    let cycles = (period - 1 + window).div_ceil(period);
    let mut counts = Vec::new();
    for run in runs(table, cycles) {
        for start in 0..period {
            counts.push(count(&run[start..start + window], queue));
        }
    }
    side.of(counts.into_iter())
}
