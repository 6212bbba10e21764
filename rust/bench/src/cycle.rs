//! The fewest and the most ticks of a queue in a cycle, in one pass from the leaves up.

use crate::judge::is_well_formed;
use domvurtesz::{Cycle, Location, Table};

/// Nothing for a table that is not well formed.
pub fn cycle(table: &Table, queue: u8) -> Option<Cycle> {
    if !is_well_formed(table) {
        return None;
    }
    // What lies below each location, as far as its children were met. Children come before their parents.
    let mut below = [None; Table::LOCATIONS];
    for (v, l) in table.counted_locations().iter().enumerate().skip(1).rev() {
        let from_here = with_own(l, queue, below[v]);
        let parent = &mut below[usize::from(l.parent)];
        *parent = Some(parent.map_or(from_here, |other| either(other, from_here)));
    }
    Some(with_own(&table.location[0], queue, below[0]))
}

fn with_own(location: &Location, queue: u8, below: Option<Cycle>) -> Cycle {
    let own = if location.queue == queue { location.ticks.into() } else { 0 };
    let Cycle { least, most } = below.unwrap_or(Cycle { least: 0, most: 0 });
    Cycle { least: own + least, most: own + most }
}

fn either(a: Cycle, b: Cycle) -> Cycle {
    Cycle { least: a.least.min(b.least), most: a.most.max(b.most) }
}
