//! Random well-formed trees of any size, without tasks.

use std::collections::BTreeSet;

use lister::{Location, Table};

use crate::random::Random;

/// How a tree grows. It has fewer locations where its ticks are used up. One queue is favoured, so that it
/// often has something in every cycle.
pub struct Size {
    pub period: u16,
    pub locations: usize,
    pub queues: u8,
    /// How many children a location gets, if any.
    pub children: (u16, u16),
    /// How many ticks a location with children gets, as far as there are so many.
    pub ticks: (u16, u16),
}

impl Size {
    /// Every limit at once, of few branches and so deep.
    pub const FULL: Size = Size {
        period: Table::PERIOD,
        locations: Table::LOCATIONS,
        queues: Table::QUEUES,
        children: (1, 2),
        ticks: (1, 8),
    };

    /// The lister lists every run of most of these.
    pub fn small(random: &mut Random) -> Size {
        let longest = random.pick(&[4, 6, 8, 10, 12]);
        Size {
            period: random.within(1, longest),
            locations: 1 + random.below(8),
            queues: random.within(1, 3) as u8,
            children: (1, random.within(1, 4)),
            ticks: (1, longest),
        }
    }

    /// The lister steps through these tick by tick.
    pub fn medium(random: &mut Random) -> Size {
        Size {
            period: random.within(25, 100),
            locations: 1 + random.below(14),
            queues: random.within(1, 4) as u8,
            children: (1, random.within(1, 6)),
            ticks: (1, random.within(1, 50)),
        }
    }
}

/// Leaves are cut in two, the second part becoming the children, until there are enough locations.
pub fn tree(random: &mut Random, size: &Size) -> Table {
    let favourite = random.within(1, size.queues.into()) as u8;
    let root = Location { ticks: size.period, high: u16::MAX, ..Location::default() };
    let mut locations = vec![root];
    let mut leaves = vec![0];
    while locations.len() < size.locations && !leaves.is_empty() {
        let leaf = leaves.swap_remove(random.below(leaves.len()));
        let ticks = locations[leaf].ticks;
        if ticks < 2 {
            continue;
        }
        let first = random.within(size.ticks.0.min(ticks - 1), size.ticks.1.min(ticks - 1));
        (locations[leaf].ticks, locations[leaf].variable) = (first, random.below(8) as u8);
        let children = usize::from(random.within(size.children.0, size.children.1));
        for (low, high) in guards(random, children.min(size.locations - locations.len())) {
            leaves.push(locations.len());
            locations.push(Location { parent: leaf as u8, ticks: ticks - first, low, high, ..root });
        }
    }
    for location in &mut locations {
        let any = random.within(0, size.queues.into()) as u8;
        location.queue = random.pick(&[favourite, any]);
    }
    if random.one_in(2) {
        locations[0].queue = favourite;
    }
    table(size, &renumbered(random, &locations))
}

/// All values in so many guards, in any order. The first and the last value are often alone.
fn guards(random: &mut Random, count: usize) -> Vec<(u16, u16)> {
    let mut ends = BTreeSet::from([u16::MAX]);
    while ends.len() < count {
        let end = if random.one_in(3) { random.pick(&[0, 1, 65_533, 65_534]) } else { random.any() as u16 };
        ends.insert(end);
    }
    let mut low = 0;
    let mut guards = Vec::new();
    for high in ends {
        guards.push((low, high));
        low = high.wrapping_add(1);
    }
    random.shuffle(&mut guards);
    guards
}

/// The same tree with its locations in any order in which parents come first.
fn renumbered(random: &mut Random, locations: &[Location]) -> Vec<Location> {
    let mut numbers = vec![0; locations.len()];
    let mut open = vec![0];
    let mut renumbered = Vec::new();
    while !open.is_empty() {
        let v = open.swap_remove(random.below(open.len()));
        let parent = numbers[usize::from(locations[v].parent)];
        numbers[v] = renumbered.len() as u8;
        renumbered.push(Location { parent, ..locations[v] });
        open.extend((1..locations.len()).filter(|&u| usize::from(locations[u].parent) == v));
    }
    renumbered
}

fn table(size: &Size, locations: &[Location]) -> Table {
    let mut table = Table::empty();
    (table.version, table.queues, table.period) = (1, size.queues, size.period);
    table.location_count = locations.len();
    table.locations[..locations.len()].copy_from_slice(locations);
    table
}
