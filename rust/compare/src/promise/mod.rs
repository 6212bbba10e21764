//! What a verdict promises (docs/RULES.md, Demand, verdict and wait), held to the library's own steps by
//! search on tiny tables: under MEETS no run is late; under SHORT one run is late in every order of service.

mod meets;
mod short;

use domvurtesz::{State, Table, Verdict};
use lister::bounds::Supply;
use lister::runs::Side;

use crate::both::described;
use crate::expected;
use crate::random::Random;
use crate::tally::{Difference, Tally};
use crate::tasks;
use crate::trees::{Size, tree};

const GAPS: [u16; 7] = [2, 3, 4, 5, 6, 8, 10];

/// The promise to every queue of a tiny table.
pub fn table(random: &mut Random, tally: &mut Tally) -> Result<(), Difference> {
    let size = Size { period: random.within(1, 6), queues: random.within(1, 2) as u8, ..Size::small(random) };
    let mut listed = tree(random, &size);
    for _ in 0..1 + random.below(3) {
        let queue = random.within(1, listed.queues.into()) as u8;
        let least = Supply::new(&listed, queue, Side::Least);
        tasks::add(random, &mut listed, queue, &least, &GAPS);
    }
    let table = expected::table(&listed);
    let reached = meets::search(&table);
    tally.see("promise, tables", 1);
    tally.see("promise, states", reached.states);
    for queue in (1..=table.queues).filter(|&queue| tasks_of(&table, queue) != 0) {
        let seen = keep(&table, queue, reached.late & tasks_of(&table, queue));
        let seen = seen.map_err(|broken| Difference::new(format!("queue {queue}: {broken}")));
        tally.see(seen.map_err(|difference| difference.about(&described(&listed)))?, 1);
    }
    Ok(())
}

/// What was promised to the queue, given which of its tasks some run has late; or how the promise is broken.
fn keep(table: &Table, queue: u8, late: u32) -> Result<&'static str, &'static str> {
    match table.verdict(queue.into()) {
        Ok(Verdict::Meets) if late != 0 => Err("meets, and a run is late"),
        Ok(Verdict::Meets) => Ok("promise, queues that meet"),
        Ok(Verdict::Short { .. }) if late == 0 => Err("short, and no run is late"),
        Ok(Verdict::Short { window, supply, .. }) => {
            short::run(table, queue, window, supply)?;
            Ok("promise, queues in short")
        }
        Err(_) => Err("no verdict"),
    }
}

/// The set of the queue's tasks.
fn tasks_of(table: &Table, queue: u8) -> u32 {
    let tasks = table.counted_tasks().iter().enumerate();
    tasks.filter(|(_, task)| task.queue == queue).fold(0, |set, (i, _)| set | 1 << i)
}

/// Values with which a run goes on from location `v` to its child.
fn values_to(table: &Table, v: usize, child: usize) -> [u16; State::VARIABLES] {
    let mut values = [0; State::VARIABLES];
    values[usize::from(table.location[v].variable)] = table.location[child].low;
    values
}

fn children(table: &Table, v: usize) -> Vec<usize> {
    (1..table.locations).filter(|&u| usize::from(table.location[u].parent) == v).collect()
}
