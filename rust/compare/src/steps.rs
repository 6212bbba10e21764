//! Runs of steps: from the fresh state, from lawful states that no run reaches, and from unlawful ones; with
//! releases in time and early ones.

use domvurtesz::{Job, State};
use lister::bounds::Supply;
use lister::runs::Side;
use lister::{Table, Task};

use crate::both::{self, Both};
use crate::random::Random;
use crate::tally::{Difference, Tally};
use crate::tasks;
use crate::trees::{Size, tree};

const STEPS: usize = 250;

/// A table with few places to choose, which the lister judges quickly, and a long run of it.
pub fn table(random: &mut Random, tally: &mut Tally) -> Result<(), Difference> {
    let wide = Size { children: (2, 7), locations: 1 + random.below(9), ..Size::small(random) };
    let size = if random.one_in(6) { Size::small(random) } else { wide };
    let mut table = tree(random, &size);
    let gaps = tasks::small_gaps(table.period);
    let most = if random.one_in(10) { Table::TASKS } else { 6 };
    for _ in 0..1 + random.below(most) {
        let queue = random.within(1, table.queues.into()) as u8;
        let least = Supply::new(&table, queue, Side::Least);
        tasks::add(random, &mut table, queue, &least, &gaps);
    }
    both::about(&table, tally, |both| run(both, random, STEPS))
}

/// Steps from the fresh state. Now and then the run goes on from another lawful state.
pub fn run(both: &mut Both, random: &mut Random, steps: usize) -> Result<(), Difference> {
    let mut state = both.fresh()?;
    for _ in 0..steps {
        if random.one_in(40) {
            state = lawful(random, both.listed);
        }
        if random.one_in(16) {
            let strange = strange(random, both.listed, &state);
            both.step(strange, values(random, both.listed), 0)?;
        }
        let released = released(random, both.listed, &state);
        state = both.step(state, values(random, both.listed), released)?.state;
    }
    Ok(())
}

/// Ends of guards, and any values.
fn values(random: &mut Random, table: &Table) -> [u16; 8] {
    [(); 8].map(|()| {
        let location = random.pick(table.locations());
        let any = random.any() as u16;
        random.pick(&[location.low, location.high, location.high.wrapping_add(1), any])
    })
}

/// Some or all of the tasks that may be released, at times with one that may not.
fn released(random: &mut Random, table: &Table, state: &State) -> u32 {
    let is_ready = |(i, task): &(usize, &Task)| state.jobs[*i].since >= task.gap;
    let ready = table.tasks().iter().enumerate().filter(is_ready).fold(0, |set, (i, _)| set | 1 << i);
    match random.below(12) {
        0 => 0,
        1 => ready | 1 << random.below(32),
        2..=5 => ready,
        _ => ready & random.any() as u32,
    }
}

/// A state that is lawful, whether or not a run reaches it.
fn lawful(random: &mut Random, table: &Table) -> State {
    let location = random.below(table.location_count);
    let mut state = State { location: location as u8, ..State::default() };
    state.done = random.within(0, table.locations[location].ticks - 1);
    for (job, task) in state.jobs.iter_mut().zip(table.tasks()) {
        *job = if random.one_in(2) { open(random, task) } else { idle(random, task) };
    }
    state
}

fn idle(random: &mut Random, task: &Task) -> Job {
    let since = if random.one_in(2) { task.gap } else { random.within(0, task.gap) };
    Job { since, remaining: 0, left: 0 }
}

fn open(random: &mut Random, task: &Task) -> Job {
    let left = random.within(1, task.deadline);
    Job { since: task.deadline - left, remaining: random.within(1, task.work), left }
}

/// The state with one number changed, so mostly unlawful.
fn strange(random: &mut Random, table: &Table, state: &State) -> State {
    let mut strange = *state;
    let tasks = random.pick(&[table.task_count.max(1), Table::TASKS]);
    let i = random.below(tasks);
    let job = &mut strange.jobs[i];
    match random.below(6) {
        0 => strange.location = random.odd(state.location.into()) as u8,
        1 => strange.done = random.odd(state.done),
        2 => job.since = random.odd(job.since),
        3 => job.remaining = random.odd(job.remaining),
        4 => job.left = random.odd(job.left),
        _ => *job = wrapped(random, &table.tasks[i]),
    }
    strange
}

/// A job whose since and left sum to D in 16 bits, though perhaps not in truth.
fn wrapped(random: &mut Random, task: &Task) -> Job {
    let since = random.within(0, task.gap);
    Job { since, remaining: task.work, left: task.deadline.wrapping_sub(since) }
}

/// Any number everywhere.
pub fn any(random: &mut Random) -> State {
    let mut number = || random.any() as u16;
    let jobs = [(); Table::TASKS].map(|()| Job { since: number(), remaining: number(), left: number() });
    State { location: number() as u8, done: number(), jobs }
}
