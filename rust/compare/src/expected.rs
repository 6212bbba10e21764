//! The answers that the library owes, made from the lister's: zeros beside a refusal, and a refused step
//! hands back its state (docs/RULES.md, What stands beside a refusal).

use std::ops::Range;

use domvurtesz::answers::{
    CycleAnswer, FieldAnswer, FreshAnswer, ReadAnswer, StepAnswer, TicksAnswer, Told, VerdictAnswer,
    WriteAnswer,
};
use domvurtesz::{Job, Location, State, Table, Task};
use lister::{Refusal, Verdict};

pub fn read(answer: Result<lister::Table, Refusal>) -> ReadAnswer {
    match answer {
        Ok(read) => ReadAnswer { refusal: Told::default(), table: table(&read) },
        Err(refusal) => ReadAnswer { refusal: told(refusal), table: Table::default() },
    }
}

pub fn written(answer: Result<usize, Refusal>) -> WriteAnswer {
    match answer {
        Ok(length) => WriteAnswer { length, ..WriteAnswer::default() },
        Err(refusal) => WriteAnswer { refusal: told(refusal), ..WriteAnswer::default() },
    }
}

pub fn field(answer: Result<Range<usize>, Refusal>) -> FieldAnswer {
    match answer {
        Ok(part) => FieldAnswer { offset: part.start, length: part.len(), ..FieldAnswer::default() },
        Err(refusal) => FieldAnswer { refusal: told(refusal), ..FieldAnswer::default() },
    }
}

/// Of a question that answers nothing but its refusal.
pub fn refusal(answer: Result<(), Refusal>) -> Told {
    answer.err().map(told).unwrap_or_default()
}

pub fn ticks(answer: Result<u64, Refusal>) -> TicksAnswer {
    match answer {
        Ok(ticks) => TicksAnswer { ticks: fit(ticks), ..TicksAnswer::default() },
        Err(refusal) => TicksAnswer { refusal: told(refusal), ..TicksAnswer::default() },
    }
}

pub fn cycle(answer: Result<(u64, u64), Refusal>) -> CycleAnswer {
    match answer {
        Ok((least, most)) => CycleAnswer { least: fit(least), most: fit(most), ..CycleAnswer::default() },
        Err(refusal) => CycleAnswer { refusal: told(refusal), ..CycleAnswer::default() },
    }
}

pub fn verdict(answer: Result<Verdict, Refusal>) -> VerdictAnswer {
    let none = VerdictAnswer::default();
    match answer {
        Ok(Verdict::Meets) => VerdictAnswer { meets: true, ..none },
        Ok(Verdict::Short { window, demand, supply }) => {
            VerdictAnswer { window: fit(window), demand: fit(demand), supply: fit(supply), ..none }
        }
        Err(refusal) => VerdictAnswer { refusal: told(refusal), ..none },
    }
}

pub fn fresh(answer: Result<lister::State, Refusal>) -> FreshAnswer {
    match answer {
        Ok(fresh) => FreshAnswer { state: state(&fresh), ..FreshAnswer::default() },
        Err(refusal) => FreshAnswer { refusal: told(refusal), ..FreshAnswer::default() },
    }
}

/// Of a step from the state `given`.
pub fn step(answer: Result<lister::Step, Refusal>, given: State) -> StepAnswer {
    let none = StepAnswer { state: given, ..StepAnswer::default() };
    match answer {
        Ok(step) => StepAnswer {
            state: state(&step.state),
            queue: step.queue,
            served: step.task.is_some(),
            task: fit(step.task.unwrap_or(0)),
            late: step.late,
            ..none
        },
        Err(refusal) => StepAnswer { refusal: told(refusal), ..none },
    }
}

/// The same table, its entries past the counts included.
pub fn table(table: &lister::Table) -> Table {
    Table {
        version: table.version,
        queues: table.queues,
        period: table.period,
        locations: table.location_count,
        tasks: table.task_count,
        location: table.locations.map(|l| Location {
            parent: l.parent,
            queue: l.queue,
            ticks: l.ticks,
            variable: l.variable,
            low: l.low,
            high: l.high,
        }),
        task: table.tasks.map(|t| Task { queue: t.queue, work: t.work, deadline: t.deadline, gap: t.gap }),
    }
}

fn state(state: &lister::State) -> State {
    let job = |j: lister::Job| Job { since: fit(j.since), remaining: fit(j.remaining), left: fit(j.left) };
    State { location: fit(state.location), done: fit(state.done), jobs: state.jobs.map(job) }
}

/// The lister's state with the numbers of the library's.
pub fn as_listed(state: &State) -> lister::State {
    lister::State {
        location: state.location.into(),
        done: state.done.into(),
        jobs: state.jobs.map(|j| lister::Job {
            since: j.since.into(),
            remaining: j.remaining.into(),
            left: j.left.into(),
        }),
    }
}

fn told(refusal: Refusal) -> Told {
    Told { number: fit(refusal.number), place: refusal.place }
}

/// No answer of the rules needs more than the library's widths.
fn fit<A, B: TryFrom<A, Error: std::fmt::Debug>>(number: A) -> B {
    number.try_into().expect("the lister answers within the rules' limits")
}
