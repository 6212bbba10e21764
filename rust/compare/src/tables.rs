//! Tables with any tasks, to be written, damaged and judged.

use lister::{Location, Table};

use crate::random::Random;
use crate::tasks;
use crate::trees::{Size, tree};

pub fn small(random: &mut Random) -> Table {
    let size = Size::small(random);
    let mut table = tree(random, &size);
    for _ in 0..random.below(4) {
        tasks::add_any(random, &mut table);
    }
    table
}

/// As many locations and tasks as there can be, or nearly. The lister is quick to judge one root with many
/// children.
pub fn full(random: &mut Random) -> Table {
    let locations = random.pick(&[2, 127, 128, 128]);
    let mut table = tree(random, &Size { locations, children: (127, 127), ..Size::FULL });
    for _ in 0..random.pick(&[0, 31, 32, 32]) {
        tasks::add_any(random, &mut table);
    }
    table
}

/// One path, whose ticks sum to the period only where 65,536 of them are lost. It is not well formed.
pub fn too_long(random: &mut Random) -> Table {
    let mut table = Table::empty();
    (table.version, table.queues, table.period) = (1, 1, random.within(1, Table::PERIOD));
    table.location_count = 65;
    for (v, location) in table.locations[..65].iter_mut().enumerate() {
        let parent = v.saturating_sub(1) as u8;
        let ticks = if v < 64 { Table::PERIOD } else { table.period };
        *location = Location { parent, ticks, high: u16::MAX, ..Location::default() };
    }
    table
}
