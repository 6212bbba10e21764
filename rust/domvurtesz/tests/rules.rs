//! The numbers that docs/RULES.md works out for its tables A and B, asked of the library.

use domvurtesz::{Cycle, Job, Kind, Refusal, State, Step, Table, Verdict, field, read};

const A: &[u8] = include_bytes!("../../../tables/a.record");
const B: &[u8] = include_bytes!("../../../tables/b.record");

fn a() -> Table {
    read(A).unwrap()
}

fn b() -> Table {
    read(B).unwrap()
}

/// Table A after a change.
fn a_with(change: impl Fn(&mut Table)) -> Table {
    let mut table = a();
    change(&mut table);
    table
}

fn refused<A>(kind: Kind, place: usize) -> Result<A, Refusal> {
    Err(Refusal { kind, place })
}

#[test]
fn a_is_read_and_written() {
    let table = a();
    assert_eq!((table.version, table.queues, table.period), (1, 2, 4));
    assert_eq!((table.locations, table.tasks), (3, 1));
    assert_eq!((table.location[2].low, table.location[2].high), (100, 65_535));
    assert_eq!(table.location[3], Default::default());
    let mut out = [7; Table::RECORD];
    assert_eq!(table.write(&mut out), Ok(53));
    assert_eq!(&out[..53], A);
    assert!(out[53..].iter().all(|&byte| byte == 7));
    assert_eq!(table.write(&mut out[..52]), refused(Kind::Room, 0));
}

#[test]
fn a_field_is_a_part_of_the_record() {
    let task = field(A, 4).unwrap();
    assert_eq!(task, [1, 0, 1, 0, 4, 0, 4]);
    assert_eq!(task.as_ptr_range(), A[46..].as_ptr_range());
    assert_eq!(field(A, 0).unwrap(), [1, 2, 0, 4]);
    assert_eq!(field(A, 5), refused(Kind::Amount, 0));
    assert_eq!(field(A, usize::MAX), refused(Kind::Amount, 0));
    assert_eq!(field(&A[..52], 0), refused(Kind::Cut, 43));
}

#[test]
fn bounds_of_a() {
    let least = [3, 4, 7, 8].map(|window| a().least(1, window));
    assert_eq!(least, [Ok(0), Ok(1), Ok(1), Ok(2)]);
    assert_eq!([a().most(2, 4), a().most(2, 5)], [Ok(3), Ok(4)]);
    assert_eq!(a().cycle(1), Ok(Cycle { least: 1, most: 4 }));
    assert_eq!(a().cycle(2), Ok(Cycle { least: 0, most: 3 }));
}

#[test]
fn bounds_of_b() {
    let least = [5, 6, 7, 11].map(|window| b().least(1, window));
    assert_eq!(least, [Ok(0), Ok(1), Ok(2), Ok(3)]);
    assert_eq!(b().cycle(1), Ok(Cycle { least: 2, most: 2 }));
    let mut filling = [9; 12];
    assert_eq!(b().fill(1, &mut filling), Ok(()));
    assert_eq!(filling, [0, 0, 0, 0, 0, 0, 1, 2, 2, 2, 9, 9]);
    assert_eq!(b().fill(1, &mut filling[..9]), refused(Kind::Room, 0));
}

#[test]
fn verdicts_and_waits_of_a() {
    assert_eq!([a().demand(1, 3), a().demand(1, 4), a().demand(1, 8)], [Ok(0), Ok(1), Ok(2)]);
    assert_eq!([a().verdict(1), a().verdict(2)], [Ok(Verdict::Meets); 2]);
    let short = a_with(|table| table.task[0].deadline = 3).verdict(1);
    assert_eq!(short, Ok(Verdict::Short { window: 3, demand: 1, supply: 0 }));
    assert_eq!(short.unwrap().to_string(), "short 3 1 0");
    assert_eq!(a().wait(1, 2), Ok(8));
    assert_eq!(a().wait(2, 1), refused(Kind::Never, 0));
}

#[test]
fn the_horizon_is_at_a_multiple_of_a_million() {
    let mut table = a_with(|table| table.task[0].gap = 65_535);
    assert_eq!(table.verdict(1), Ok(Verdict::Meets));
    table.tasks = 2;
    table.task[1] = table.task[0];
    table.task[1].gap = 65_533;
    assert_eq!(table.verdict(1), refused(Kind::Horizon, 0));
}

#[test]
fn what_is_not_well_formed_is_refused() {
    assert_eq!(read(&[]), refused(Kind::Cut, 0));
    assert_eq!(read(&[A, b"\n"].concat()), refused(Kind::Cut, 53));
    let guard = |low| a_with(|table| table.location[2].low = low).judge();
    assert_eq!([guard(101), guard(99)], [refused(Kind::Gap, 1), refused(Kind::Overlap, 1)]);
    assert_eq!(a_with(|table| table.location[2].ticks = 2).judge(), refused(Kind::Period, 3));
    assert_eq!(a_with(|table| table.locations = usize::MAX).judge(), refused(Kind::Count, 0));
    assert_eq!(a_with(|table| table.task[0].work = 5).cycle(1), refused(Kind::Task, 4));
    assert_eq!(a().least(0, 5), refused(Kind::Queue, 0));
    assert_eq!(a().least(u32::MAX, u32::MAX), refused(Kind::Queue, 0));
    assert_eq!(a().most(1, 2_000_001), refused(Kind::Amount, 0));
    assert_eq!([a().wait(1, 0), a().wait(1, 65_536)], [refused(Kind::Amount, 0), refused(Kind::Amount, 0)]);
}

/// The steps from the fresh state, with variable 0 at 100: queue granted, task served and late set.
fn steps(table: &Table, released: &[u32]) -> Vec<(u8, Option<usize>, u32)> {
    let mut state = State::fresh(table).unwrap();
    let mut step = |&released: &u32| {
        let step = state.step(table, [100; 8], released).unwrap();
        state = step.state;
        (step.queue, step.served, step.late)
    };
    released.iter().map(&mut step).collect()
}

#[test]
fn steps_of_a() {
    let served = (1, Some(0), 0);
    let idle = (2, None, 0);
    assert_eq!(steps(&a(), &[1, 0, 0, 0, 1]), [served, idle, idle, idle, served]);
    let late = steps(&a_with(|table| table.task[0].deadline = 3), &[0, 1, 0, 0]);
    assert_eq!(late, [(1, None, 0), idle, idle, (2, None, 1)]);
}

#[test]
fn a_step_hands_back_the_next_state() {
    let fresh = State::fresh(&a()).unwrap();
    assert_eq!(fresh.jobs[0], Job { since: 4, remaining: 0, left: 0 });
    let Step { state, .. } = fresh.step(&a(), [100; 8], 1).unwrap();
    assert_eq!((state.location, state.done), (2, 0));
    assert_eq!(state.jobs[0], Job { since: 1, remaining: 0, left: 0 });
    assert_eq!(state.step(&a(), [100; 8], 1), refused(Kind::Early, 0));
    assert_eq!(fresh.step(&a(), [100; 8], 1 << 31), refused(Kind::Early, 31));
    assert_eq!(State { location: 3, ..fresh }.step(&a(), [0; 8], 0), refused(Kind::State, 0));
}

#[test]
fn tables_that_differ_past_the_counts_are_the_same() {
    assert_eq!(a_with(|table| table.location[3].ticks = 9), a());
    assert_ne!(a_with(|table| table.location[2].ticks = 9), a());
}
