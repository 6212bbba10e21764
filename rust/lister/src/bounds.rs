//! Least, most, cycle and filling (docs/RULES.md, Runs and bounds). Small trees are listed run by run;
//! large ones are stepped through tick by tick, from all positions at once.

use crate::judge::{judge_queue, judge_window};
use crate::refusal::{ROOM, Refusal, refuse_if};
use crate::runs::{self, Side};
use crate::table::Table;

pub fn least(table: &Table, queue: u64, window: u64) -> Result<u64, Refusal> {
    let queue = judge_window(table, queue, window)?;
    Ok(Supply::new(table, queue, Side::Least).at(window))
}

pub fn most(table: &Table, queue: u64, window: u64) -> Result<u64, Refusal> {
    let queue = judge_window(table, queue, window)?;
    Ok(Supply::new(table, queue, Side::Most).at(window))
}

/// Cycle least and cycle most.
pub fn cycle(table: &Table, queue: u64) -> Result<(u64, u64), Refusal> {
    let queue = judge_queue(table, queue)?;
    let least = whole_cycle(table, queue, Side::Least);
    let most = whole_cycle(table, queue, Side::Most);
    Ok((least, most))
}

/// Puts least for the windows 0 to 2P - 1 into the first entries of `out`.
pub fn fill(table: &Table, queue: u64, out: &mut [u32]) -> Result<(), Refusal> {
    let queue = judge_queue(table, queue)?;
    let supply = Supply::new(table, queue, Side::Least);
    refuse_if(out.len() < supply.first.len(), ROOM, 0)?;
    for (entry, &least) in out.iter_mut().zip(&supply.first) {
        *entry = least as u32;
    }
    Ok(())
}

/// Least or most of one queue of a judged table, for windows without an upper end.
pub struct Supply {
    /// For the windows 0 to 2P - 1.
    first: Vec<u64>,
    pub cycle: u64,
    period: u64,
}

impl Supply {
    pub fn new(table: &Table, queue: u8, side: Side) -> Supply {
        let windows = 2 * usize::from(table.period);
        let first = if runs::is_small(table) {
            (0..windows).map(|window| runs::bound(table, queue, window, side)).collect()
        } else {
            stepped(table, queue, windows, side)
        };
        Supply { first, cycle: whole_cycle(table, queue, side), period: table.period.into() }
    }

    /// From 2P on by the law of the period, down to a window between P and 2P.
    pub fn at(&self, window: u64) -> u64 {
        let cycles = (window / self.period).saturating_sub(1);
        let first = (window - cycles * self.period) as usize;
        self.first[first] + cycles * self.cycle
    }
}

fn whole_cycle(table: &Table, queue: u8, side: Side) -> u64 {
    let paths = runs::paths(table);
    side.of(paths.iter().map(|path| runs::count(path, queue)))
}

/// The bound for the windows 0 to `windows` - 1, by stepping. A position is a location and a tick in it;
/// `from` holds the bound of the windows that start there. One tick longer is the position's own tick and
/// then the old window from the next position: in the same location, or after its last tick where a run may
/// go on.
pub fn stepped(table: &Table, queue: u8, windows: usize, side: Side) -> Vec<u64> {
    let locations = table.locations();
    let next: Vec<Vec<usize>> = (0..locations.len()).map(|v| next(table, v)).collect();
    let mut from: Vec<Vec<u64>> = locations.iter().map(|l| vec![0; l.ticks.into()]).collect();
    let mut bounds = Vec::new();
    for _ in 0..windows {
        bounds.push(side.of(from.iter().flatten().copied()));
        let entered = |next: &Vec<usize>| side.of(next.iter().map(|&v| from[v][0]));
        let after: Vec<u64> = next.iter().map(entered).collect();
        for (v, row) in from.iter_mut().enumerate() {
            row.remove(0);
            row.push(after[v]);
            if locations[v].queue == queue {
                row.iter_mut().for_each(|ticks| *ticks += 1);
            }
        }
    }
    bounds
}

/// Where a run may go on after the last tick of location `v`.
fn next(table: &Table, v: usize) -> Vec<usize> {
    if table.is_leaf(v) {
        return vec![0];
    }
    table.children(v)
}
