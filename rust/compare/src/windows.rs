//! Bounds, demand, verdict and wait of well-formed tables: small ones, and some at every limit.

use lister::bounds::Supply;
use lister::demand::tasks_of;
use lister::runs::{Side, is_small};
use lister::{Table, Verdict};

use crate::both::{self, Both};
use crate::random::Random;
use crate::tally::{Difference, Tally};
use crate::tasks::{self, LARGE};
use crate::trees::{Size, tree};
use crate::{damage, steps};

/// The longest window that may be asked about.
const LONGEST: u32 = 2_000_000;

/// What the lister knows of one queue; it is slow to find, so it is kept.
struct Queue {
    number: u8,
    least: Supply,
    most: Supply,
}

impl Queue {
    fn of(table: &Table, number: u8) -> Queue {
        let supply = |side| Supply::new(table, number, side);
        Queue { number, least: supply(Side::Least), most: supply(Side::Most) }
    }
}

/// A small table, and each of its queues.
pub fn small(random: &mut Random, tally: &mut Tally) -> Result<(), Difference> {
    let size = if random.one_in(3) { Size::medium(random) } else { Size::small(random) };
    let mut table = tree(random, &size);
    let queues: Vec<Queue> = (1..=table.queues).map(|queue| Queue::of(&table, queue)).collect();
    let gaps = tasks::small_gaps(table.period);
    for _ in 0..random.below(8) {
        // The better served of two, so that more than a tick may be sure.
        let two = [(); 2].map(|()| &queues[random.below(queues.len())]);
        let queue = if two[0].least.cycle > two[1].least.cycle { two[0] } else { two[1] };
        tasks::add(random, &mut table, queue.number, &queue.least, &gaps);
    }
    if random.one_in(6) {
        tasks::add_any(random, &mut table);
    }
    if random.one_in(12) {
        tasks::add_at_horizon(random, &mut table);
    }
    if random.one_in(2) {
        damage::litter_past(random, &mut table);
    }
    tally.see(if is_small(&table) { "tables, every run listed" } else { "tables stepped through" }, 1);
    both::about(&table, tally, |both| {
        for queue in &queues {
            let windows = 0..=2 * u32::from(table.period) + 2;
            let windows: Vec<u32> = windows.filter(|&w| w < 30 || random.one_in(4)).collect();
            bounds(both, queue, &windows)?;
            questions(both, random, queue)?;
        }
        outside(both, random)
    })
}

/// Two tables at every limit, a deep one and a wide one.
pub fn full(random: &mut Random, tally: &mut Tally) -> Result<(), Difference> {
    at_every_limit(random, tally, &Size::FULL)?;
    // The lister steps through every tick of every location: a long root keeps the leaves short.
    at_every_limit(random, tally, &Size { children: (20, 127), ticks: (800, 1_000), ..Size::FULL })
}

/// The root's queue, which has something in every cycle, and another one are asked about.
fn at_every_limit(random: &mut Random, tally: &mut Tally, size: &Size) -> Result<(), Difference> {
    let mut table = tree(random, size);
    table.locations[0].queue = size.queues;
    let queues = [size.queues, random.within(1, 15) as u8].map(|queue| Queue::of(&table, queue));
    while table.task_count < Table::TASKS {
        let queue = &queues[random.below(2)];
        tasks::add(random, &mut table, queue.number, &queue.least, &LARGE);
    }
    tally.see("tables at every limit", u64::from(table.location_count == size.locations));
    both::about(&table, tally, |both| {
        for queue in &queues {
            let mut windows = vec![1_022, 1_023, 1_024, 1_025, 2_046, 2_047, 2_048, 2_049, 3_071, 3_072];
            windows.extend((0..100).map(|_| random.below(4_000) as u32));
            bounds(both, queue, &windows)?;
            questions(both, random, queue)?;
        }
        for ticks in [0, 1, 65_535, 65_536, u32::MAX] {
            both.wait(size.queues.into(), ticks)?;
        }
        for queue in [0, 17, u32::MAX] {
            both.cycle(queue)?;
        }
        steps::run(both, random, 20)
    })
}

fn bounds(both: &mut Both, queue: &Queue, windows: &[u32]) -> Result<(), Difference> {
    let number = queue.number.into();
    for window in windows.iter().copied().chain([0, 1, LONGEST - 1, LONGEST]) {
        both.bound_is(Side::Least, number, window, Ok(queue.least.at(window.into())))?;
        both.bound_is(Side::Most, number, window, Ok(queue.most.at(window.into())))?;
    }
    both.bound(Side::Least, number, LONGEST + 1)?;
    both.bound(Side::Most, number, u32::MAX)
}

fn questions(both: &mut Both, random: &mut Random, queue: &Queue) -> Result<(), Difference> {
    let number = queue.number.into();
    both.cycle(number)?;
    let enough = 2 * usize::from(both.listed.period);
    both.fill(number, random.pick(&[enough, enough, enough + 20, enough - 1, 0]))?;
    verdict(both, random, queue.number)?;
    let far = random.pick(&[0, LONGEST, LONGEST + 1, u32::MAX]);
    for window in [random.below(50) as u32, random.below(2_000_000) as u32, far] {
        both.demand(number, window)?;
    }
    both.wait(number, 1 + random.below(2 * enough) as u32)?;
    both.wait(number, random.pick(&[0, 1, 2, 65_536, u32::MAX]))
}

/// Where it is MEETS, the same with a tick more of work, which tells how near the edge that was.
fn verdict(both: &mut Both, random: &mut Random, queue: u8) -> Result<(), Difference> {
    let tasks = tasks_of(both.listed, queue).len();
    let verdict = both.verdict(queue.into())?;
    if verdict != Some(Verdict::Meets) || tasks == 0 {
        return Ok(());
    }
    both.tally.see("verdict meets, with tasks", 1);
    let mut more = both.listed.clone();
    let own = more.tasks[..more.task_count].iter_mut().filter(|task| task.queue == queue);
    let task = own.into_iter().nth(random.below(tasks)).expect("the queue has tasks");
    if task.work == task.deadline {
        return Ok(());
    }
    task.work += 1;
    both::about(&more, both.tally, |both| {
        let is_short = matches!(both.verdict(queue.into())?, Some(Verdict::Short { .. }));
        both.tally.see("verdict meets, by a tick", is_short.into());
        Ok(())
    })
}

/// Queues that the table does not have. Some would be its queues in fewer bits.
fn outside(both: &mut Both, random: &mut Random) -> Result<(), Difference> {
    let queues = u32::from(both.listed.queues);
    let queue = random.pick(&[0, queues + 1, 17, 255, 256 + queues, 65_536 + queues, u32::MAX]);
    let window = random.pick(&[0, 5, LONGEST, LONGEST + 1]);
    both.bound(Side::Least, queue, window)?;
    match random.below(6) {
        0 => both.bound(Side::Most, queue, window),
        1 => both.cycle(queue),
        2 => both.fill(queue, random.pick(&[0, 2_048])),
        3 => both.demand(queue, window),
        4 => both.verdict(queue).map(drop),
        _ => both.wait(queue, random.pick(&[0, 1, 65_536])),
    }
}
