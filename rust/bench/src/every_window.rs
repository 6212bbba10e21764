//! The filling by trying every window: each one that ends at each tick of each location.

use crate::judge::is_leaf;
use domvurtesz::Table;

/// Puts least for the windows 0 to 2P - 1 into `out`.
pub fn fill(table: &Table, queue: u8, out: &mut [u32]) {
    let period = usize::from(table.period);
    let counts = counts(table, queue);
    let tails = tails(table, &counts);
    let out = &mut out[..2 * period];
    out.fill(u32::MAX);
    for (v, counts) in counts.iter().enumerate() {
        let end = counts.len() - 1;
        for at in end - usize::from(table.location[v].ticks)..=end {
            try_windows(out, &counts[..=at], &tails);
        }
    }
}

/// Every window that ends where these counts end: within the cycle, or into the cycles before.
fn try_windows(out: &mut [u32], counts: &[u32], tails: &[u32]) {
    let at = counts.len() - 1;
    let (within, across) = out.split_at_mut(at + 1);
    for (entry, before) in within.iter_mut().zip(counts.iter().rev()) {
        *entry = (*entry).min(counts[at] - before);
    }
    for (entry, tail) in across.iter_mut().zip(&tails[1..]) {
        *entry = (*entry).min(counts[at] + tail);
    }
}

/// For each location the queue's ticks in a cycle, up to each tick of its path.
fn counts(table: &Table, queue: u8) -> Vec<Vec<u32>> {
    // Parents come before their children.
    let mut counts: Vec<Vec<u32>> = Vec::new();
    for (v, l) in table.counted_locations().iter().enumerate() {
        let mut path = if v == 0 { vec![0] } else { counts[usize::from(l.parent)].clone() };
        for _ in 0..l.ticks {
            path.push(path[path.len() - 1] + u32::from(l.queue == queue));
        }
        counts.push(path);
    }
    counts
}

/// The least in the last ticks before a cycle's start, up to two cycles of them.
fn tails(table: &Table, counts: &[Vec<u32>]) -> Vec<u32> {
    let period = usize::from(table.period);
    let mut tails = vec![u32::MAX; period + 1];
    for leaf in (0..table.locations).filter(|&v| is_leaf(table, v)) {
        for (ticks, entry) in tails.iter_mut().enumerate() {
            *entry = (*entry).min(counts[leaf][period] - counts[leaf][period - ticks]);
        }
    }
    for ticks in 1..=period {
        tails.push(tails[period] + tails[ticks]);
    }
    tails
}
