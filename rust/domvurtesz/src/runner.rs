//! The runner: its state, the fresh one, and one step per tick (docs/RULES.md, The runner).

use crate::ffi;
use crate::refusal::Refusal;
use crate::table::Table;

/// Ticks since the last release, work that remains, ticks left to the deadline.
#[repr(C)]
#[derive(Clone, Copy, Debug, Default, PartialEq, Eq, Hash)]
pub struct Job {
    pub since: u16,
    pub remaining: u16,
    pub left: u16,
}

/// A location, how many of its ticks are done, and one job for each task; the entries past the tasks are 0.
#[repr(C)]
#[derive(Clone, Copy, Debug, Default, PartialEq, Eq, Hash)]
pub struct State {
    pub location: u8,
    pub done: u16,
    pub jobs: [Job; Table::TASKS],
}

/// The answer of a step that is not refused. Bit i of the late set is task i.
#[derive(Clone, Copy, Debug, PartialEq, Eq, Hash)]
pub struct Step {
    pub state: State,
    /// The queue granted; 0 is nobody.
    pub queue: u8,
    /// The task served.
    pub served: Option<usize>,
    pub late: u32,
}

impl State {
    pub const VARIABLES: usize = Table::VARIABLES as usize;

    /// At the root, without work, and ready for every release.
    pub fn fresh(table: &Table) -> Result<State, Refusal> {
        let answer = ffi::fresh(*table);
        answer.refusal.unless_refused(answer.state)
    }

    /// One tick, with the variables' values and the set of the tasks that are released. A refused step
    /// changes nothing: the caller keeps the state that it has.
    pub fn step(
        &self,
        table: &Table,
        values: [u16; State::VARIABLES],
        released: u32,
    ) -> Result<Step, Refusal> {
        let answer = ffi::step(*self, *table, &values, released);
        answer.refusal.unless_refused(())?;
        let served = answer.served.then_some(answer.task.into());
        Ok(Step { state: answer.state, queue: answer.queue, served, late: answer.late })
    }
}
