//! The functions of the static library, each behind a safe one.

use crate::answers::{
    CycleAnswer, FieldAnswer, FreshAnswer, ReadAnswer, StepAnswer, TicksAnswer, Told, VerdictAnswer,
    WriteAnswer,
};
use crate::runner::State;
use crate::table::Table;

// SAFETY: these are the functions of crates/domvurtesz/src with the layouts of their structs. What is handed
// over by value may be in any condition, and the eight values are lent for the call.
unsafe extern "C" {
    pub safe fn domvurtesz_judge(table: Table) -> Told;
    fn domvurtesz_read(record: *const u8, length: usize) -> ReadAnswer;
    fn domvurtesz_field(record: *const u8, length: usize, k: usize) -> FieldAnswer;
    fn domvurtesz_write(table: Table, out: *mut u8, length: usize) -> WriteAnswer;
    pub safe fn domvurtesz_least(table: Table, queue: u32, window: u32) -> TicksAnswer;
    pub safe fn domvurtesz_most(table: Table, queue: u32, window: u32) -> TicksAnswer;
    pub safe fn domvurtesz_cycle(table: Table, queue: u32) -> CycleAnswer;
    fn domvurtesz_fill(table: Table, queue: u32, out: *mut u32, length: usize) -> Told;
    pub safe fn domvurtesz_demand(table: Table, queue: u32, window: u32) -> TicksAnswer;
    pub safe fn domvurtesz_verdict(table: Table, queue: u32) -> VerdictAnswer;
    pub safe fn domvurtesz_wait(table: Table, queue: u32, ticks: u32) -> TicksAnswer;
    pub safe fn domvurtesz_fresh(table: Table) -> FreshAnswer;
    pub safe fn domvurtesz_step(
        state: State,
        table: Table,
        values: &[u16; State::VARIABLES],
        released: u32,
    ) -> StepAnswer;
}

pub use domvurtesz_cycle as cycle;
pub use domvurtesz_demand as demand;
pub use domvurtesz_fresh as fresh;
pub use domvurtesz_judge as judge;
pub use domvurtesz_least as least;
pub use domvurtesz_most as most;
pub use domvurtesz_step as step;
pub use domvurtesz_verdict as verdict;
pub use domvurtesz_wait as wait;

#[inline]
pub fn read(record: &[u8]) -> ReadAnswer {
    // SAFETY: the pointer and the length are those of one slice.
    unsafe { domvurtesz_read(record.as_ptr(), record.len()) }
}

#[inline]
pub fn field(record: &[u8], k: usize) -> FieldAnswer {
    // SAFETY: the pointer and the length are those of one slice.
    unsafe { domvurtesz_field(record.as_ptr(), record.len(), k) }
}

#[inline]
pub fn write(table: Table, out: &mut [u8]) -> WriteAnswer {
    // SAFETY: the pointer and the length are those of one slice.
    unsafe { domvurtesz_write(table, out.as_mut_ptr(), out.len()) }
}

#[inline]
pub fn fill(table: Table, queue: u32, out: &mut [u32]) -> Told {
    // SAFETY: the pointer and the length are those of one slice.
    unsafe { domvurtesz_fill(table, queue, out.as_mut_ptr(), out.len()) }
}
