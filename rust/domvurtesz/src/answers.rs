//! The questions with their whole answers, as they are linked: what stands beside a refusal is here too.
//! This is for programs that check the library; others ask by the functions that answer a `Result`.

pub use crate::ffi::{
    cycle, demand, field, fill, fresh, judge, least, most, read, step, verdict, wait, write,
};
use crate::refusal::{Kind, Refusal};
use crate::runner::State;
use crate::table::Table;

/// Number 0 is no refusal.
#[repr(C)]
#[derive(Clone, Copy, Debug, Default, PartialEq, Eq)]
pub struct Told {
    pub number: u8,
    pub place: usize,
}

impl Told {
    pub(crate) fn unless_refused<A>(self, answer: A) -> Result<A, Refusal> {
        if self.number == 0 {
            return Ok(answer);
        }
        let kind = Kind::of_number(self.number).expect("the library refuses by the rules' numbers");
        Err(Refusal { kind, place: self.place })
    }
}

#[repr(C)]
#[derive(Clone, Copy, Debug)]
pub struct ReadAnswer {
    pub refusal: Told,
    pub table: Table,
}

#[repr(C)]
#[derive(Clone, Copy, Debug, Default, PartialEq, Eq)]
pub struct WriteAnswer {
    pub refusal: Told,
    pub length: usize,
}

/// Where the payload lies in the record.
#[repr(C)]
#[derive(Clone, Copy, Debug, Default, PartialEq, Eq)]
pub struct FieldAnswer {
    pub refusal: Told,
    pub offset: usize,
    pub length: usize,
}

#[repr(C)]
#[derive(Clone, Copy, Debug, Default, PartialEq, Eq)]
pub struct TicksAnswer {
    pub refusal: Told,
    pub ticks: u32,
}

#[repr(C)]
#[derive(Clone, Copy, Debug, Default, PartialEq, Eq)]
pub struct CycleAnswer {
    pub refusal: Told,
    pub least: u32,
    pub most: u32,
}

#[repr(C)]
#[derive(Clone, Copy, Debug, Default, PartialEq, Eq)]
pub struct VerdictAnswer {
    pub refusal: Told,
    pub meets: bool,
    pub window: u32,
    pub demand: u32,
    pub supply: u32,
}

#[repr(C)]
#[derive(Clone, Copy, Debug, Default, PartialEq, Eq)]
pub struct FreshAnswer {
    pub refusal: Told,
    pub state: State,
}

#[repr(C)]
#[derive(Clone, Copy, Debug, Default, PartialEq, Eq)]
pub struct StepAnswer {
    pub refusal: Told,
    pub state: State,
    pub queue: u8,
    pub served: bool,
    pub task: u8,
    pub late: u32,
}
