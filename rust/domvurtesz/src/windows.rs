//! Questions about a queue (docs/RULES.md, Runs and bounds; Demand, verdict and wait). Any number may be
//! asked about: a queue, a window or a wait outside its limits is refused.

use std::fmt;

use crate::ffi;
use crate::refusal::Refusal;
use crate::table::Table;

/// The fewest and the most ticks of a queue on a path from the root to a leaf.
#[derive(Clone, Copy, Debug, PartialEq, Eq, Hash)]
pub struct Cycle {
    pub least: u32,
    pub most: u32,
}

/// Whether a queue is always in time; if not, the smallest window whose demand is above the supply.
#[derive(Clone, Copy, Debug, PartialEq, Eq, Hash)]
pub enum Verdict {
    Meets,
    Short { window: u32, demand: u32, supply: u32 },
}

impl Table {
    /// The fewest ticks that the queue gets in any window of so many ticks.
    pub fn least(&self, queue: u32, window: u32) -> Result<u32, Refusal> {
        let answer = ffi::least(*self, queue, window);
        answer.refusal.unless_refused(answer.ticks)
    }

    /// The most ticks that the queue gets in any window of so many ticks.
    pub fn most(&self, queue: u32, window: u32) -> Result<u32, Refusal> {
        let answer = ffi::most(*self, queue, window);
        answer.refusal.unless_refused(answer.ticks)
    }

    pub fn cycle(&self, queue: u32) -> Result<Cycle, Refusal> {
        let answer = ffi::cycle(*self, queue);
        answer.refusal.unless_refused(Cycle { least: answer.least, most: answer.most })
    }

    /// Puts least for the windows 0 to 2P - 1 into the first entries of `out`; the others stay as they are.
    pub fn fill(&self, queue: u32, out: &mut [u32]) -> Result<(), Refusal> {
        ffi::fill(*self, queue, out).unless_refused(())
    }

    /// The most work of the queue that can be released and be due within a window of so many ticks.
    pub fn demand(&self, queue: u32, window: u32) -> Result<u32, Refusal> {
        let answer = ffi::demand(*self, queue, window);
        answer.refusal.unless_refused(answer.ticks)
    }

    pub fn verdict(&self, queue: u32) -> Result<Verdict, Refusal> {
        let answer = ffi::verdict(*self, queue);
        answer.refusal.unless_refused(())?;
        if answer.meets {
            return Ok(Verdict::Meets);
        }
        Ok(Verdict::Short { window: answer.window, demand: answer.demand, supply: answer.supply })
    }

    /// The smallest window that is sure to hold so many ticks of the queue.
    pub fn wait(&self, queue: u32, ticks: u32) -> Result<u32, Refusal> {
        let answer = ffi::wait(*self, queue, ticks);
        answer.refusal.unless_refused(answer.ticks)
    }
}

/// The words of the listing.
impl fmt::Display for Verdict {
    fn fmt(&self, out: &mut fmt::Formatter) -> fmt::Result {
        match self {
            Verdict::Meets => write!(out, "meets"),
            Verdict::Short { window, demand, supply } => write!(out, "short {window} {demand} {supply}"),
        }
    }
}
