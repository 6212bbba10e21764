//! The sixteen numbers of refusal (docs/RULES.md, Refusals).

use std::fmt;

/// Why an answer is refused, and where.
#[derive(Clone, Copy, Debug, PartialEq, Eq)]
pub struct Refusal {
    pub number: u32,
    pub place: usize,
}

pub const CUT: u32 = 1;
pub const FIELD: u32 = 2;
pub const COUNT: u32 = 3;
pub const VALUE: u32 = 4;
pub const SHAPE: u32 = 5;
pub const GAP: u32 = 6;
pub const OVERLAP: u32 = 7;
pub const PERIOD: u32 = 8;
pub const TASK: u32 = 9;
pub const QUEUE: u32 = 10;
pub const AMOUNT: u32 = 11;
pub const NEVER: u32 = 12;
pub const HORIZON: u32 = 13;
pub const STATE: u32 = 14;
pub const EARLY: u32 = 15;
pub const ROOM: u32 = 16;

/// The refusal by `number` at `place`, if `broken`.
pub fn refuse_if(broken: bool, number: u32, place: usize) -> Result<(), Refusal> {
    if broken {
        return Err(Refusal { number, place });
    }
    Ok(())
}

impl fmt::Display for Refusal {
    fn fmt(&self, out: &mut fmt::Formatter) -> fmt::Result {
        write!(out, "refused {} {}", self.number, self.place)
    }
}
