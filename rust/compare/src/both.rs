//! Every question about a table, asked of the library and of the lister, whole answers compared.

use domvurtesz::answers::{self, StepAnswer};
use domvurtesz::{State, Table};
use lister::runs::Side;
use lister::{Refusal, Verdict};

use crate::damage::fields;
use crate::expected;
use crate::tally::{Difference, Tally};

/// Entries of a buffer that are not lent and stay as they are.
const BEYOND: usize = 9;

/// One table as each of the two takes it.
pub struct Both<'a> {
    pub listed: &'a lister::Table,
    pub linked: Table,
    pub tally: &'a mut Tally,
}

/// Asks about a table; a difference tells of it.
pub fn about(
    table: &lister::Table,
    tally: &mut Tally,
    ask: impl FnOnce(&mut Both) -> Result<(), Difference>,
) -> Result<(), Difference> {
    let mut both = Both { listed: table, linked: expected::table(table), tally };
    ask(&mut both).map_err(|difference| difference.about(&described(table)))
}

/// The record where there is one, else the table's fields.
pub fn described(table: &lister::Table) -> String {
    match lister::judge(table) {
        Ok(()) => record_in_hex(&fields(table).concat()),
        Err(_) => format!("table {table:?}"),
    }
}

pub fn record_in_hex(record: &[u8]) -> String {
    let bytes: Vec<String> = record.iter().map(|byte| format!("{byte:02X}")).collect();
    format!("record {}", bytes.join(" "))
}

impl Both<'_> {
    pub fn judge(&mut self) -> Result<(), Difference> {
        let owed = expected::refusal(lister::judge(self.listed));
        self.tally.same("judge", format_args!(""), answers::judge(self.linked), owed)
    }

    /// With a buffer of so many bytes.
    pub fn write(&mut self, lent: usize) -> Result<(), Difference> {
        let mut out: Vec<u8> = (0..lent + BEYOND).map(|i| !(i as u8)).collect();
        let mut expected = out.clone();
        let answer = answers::write(self.linked, &mut out[..lent]);
        let owed = expected::written(lister::write(self.listed, &mut expected[..lent]));
        self.tally.same("write", format_args!("into {lent}"), (answer, out), (owed, expected))
    }

    pub fn bound(&mut self, side: Side, queue: u32, window: u32) -> Result<(), Difference> {
        let owed = match side {
            Side::Least => lister::least(self.listed, queue.into(), window.into()),
            Side::Most => lister::most(self.listed, queue.into(), window.into()),
        };
        self.bound_is(side, queue, window, owed)
    }

    /// Where the lister's answer is known.
    pub fn bound_is(
        &mut self,
        side: Side,
        queue: u32,
        window: u32,
        owed: Result<u64, Refusal>,
    ) -> Result<(), Difference> {
        let (name, answer) = match side {
            Side::Least => ("least", answers::least(self.linked, queue, window)),
            Side::Most => ("most", answers::most(self.linked, queue, window)),
        };
        self.tally.same(name, format_args!("{queue} {window}"), answer, expected::ticks(owed))
    }

    pub fn cycle(&mut self, queue: u32) -> Result<(), Difference> {
        let owed = expected::cycle(lister::cycle(self.listed, queue.into()));
        self.tally.same("cycle", format_args!("{queue}"), answers::cycle(self.linked, queue), owed)
    }

    /// With a slice of so many entries.
    pub fn fill(&mut self, queue: u32, lent: usize) -> Result<(), Difference> {
        let mut out: Vec<u32> = (0..lent + BEYOND).map(|i| !(i as u32)).collect();
        let mut expected = out.clone();
        let answer = answers::fill(self.linked, queue, &mut out[..lent]);
        let owed = expected::refusal(lister::fill(self.listed, queue.into(), &mut expected[..lent]));
        self.tally.same("fill", format_args!("{queue} into {lent}"), (answer, out), (owed, expected))
    }

    pub fn demand(&mut self, queue: u32, window: u32) -> Result<(), Difference> {
        let owed = expected::ticks(lister::demand(self.listed, queue.into(), window.into()));
        let answer = answers::demand(self.linked, queue, window);
        self.tally.same("demand", format_args!("{queue} {window}"), answer, owed)
    }

    /// Hands back the verdict, if there is one.
    pub fn verdict(&mut self, queue: u32) -> Result<Option<Verdict>, Difference> {
        let verdict = lister::verdict(self.listed, queue.into());
        let owed = expected::verdict(verdict);
        self.tally.same("verdict", format_args!("{queue}"), answers::verdict(self.linked, queue), owed)?;
        match verdict {
            Ok(Verdict::Meets) => self.tally.see("verdict meets", 1),
            Ok(Verdict::Short { demand, supply, .. }) => {
                self.tally.see("verdict short", 1);
                self.tally.see("verdict short by 1", (demand == supply + 1).into());
            }
            Err(_) => (),
        }
        Ok(verdict.ok())
    }

    pub fn wait(&mut self, queue: u32, ticks: u32) -> Result<(), Difference> {
        let owed = expected::ticks(lister::wait(self.listed, queue.into(), ticks.into()));
        let answer = answers::wait(self.linked, queue, ticks);
        self.tally.same("wait", format_args!("{queue} {ticks}"), answer, owed)
    }

    /// Hands back the library's state.
    pub fn fresh(&mut self) -> Result<State, Difference> {
        let answer = answers::fresh(self.linked);
        let owed = expected::fresh(lister::State::fresh(self.listed));
        self.tally.same("fresh", format_args!(""), answer, owed)?;
        Ok(answer.state)
    }

    /// Hands back the library's answer.
    pub fn step(&mut self, state: State, values: [u16; 8], released: u32) -> Result<StepAnswer, Difference> {
        let answer = answers::step(state, self.linked, &values, released);
        let owed = expected::as_listed(&state).step(self.listed, values, released);
        let numbers = format_args!("{values:?} {released} from {state:?}");
        self.tally.same("step", numbers, answer, expected::step(owed, state))?;
        self.tally.see("late jobs", answer.late.count_ones().into());
        Ok(answer)
    }
}
