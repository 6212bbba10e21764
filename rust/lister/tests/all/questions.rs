//! Least, most, cycle, filling, demand, verdict, wait and listing: the worked numbers, the refusals 10 to 13.

use lister::refusal::*;
use lister::{Location, Table, Task, Verdict, cycle, demand, fill, least, listing, most, verdict, wait};

use crate::samples::{
    FULL, always, figure4, location, record_a, refused, table, table_a, table_a_due, table_b, task,
};

fn leasts<const N: usize>(table: &Table, queue: u64, windows: [u64; N]) -> [u64; N] {
    windows.map(|window| least(table, queue, window).unwrap())
}

fn mosts<const N: usize>(table: &Table, queue: u64, windows: [u64; N]) -> [u64; N] {
    windows.map(|window| most(table, queue, window).unwrap())
}

fn waits<const N: usize>(table: &Table, queue: u64, ticks: [u64; N]) -> [u64; N] {
    ticks.map(|ticks| wait(table, queue, ticks).unwrap())
}

fn short(window: u64, demand: u64, supply: u64) -> Result<Verdict, lister::Refusal> {
    Ok(Verdict::Short { window, demand, supply })
}

#[test]
fn table_a_is_as_worked() {
    let a = table_a();
    assert_eq!(leasts(&a, 1, [0, 3, 4, 7, 8]), [0, 0, 1, 1, 2]);
    assert_eq!(mosts(&a, 2, [0, 4, 5]), [0, 3, 4]);
    assert_eq!((cycle(&a, 1), cycle(&a, 2)), (Ok((1, 4)), Ok((0, 3))));
    assert_eq!(waits(&a, 1, [1, 2]), [4, 8]);
    assert_eq!(wait(&a, 2, 1), refused(NEVER, 0));
    assert_eq!((verdict(&a, 1), verdict(&a, 2)), (Ok(Verdict::Meets), Ok(Verdict::Meets)));
    assert_eq!(verdict(&table_a_due(3), 1), short(3, 1, 0));
    // The cycle `1 2 2 2` for ever, and `1 1 1 1` for ever.
    assert_eq!(leasts(&a, 1, [1_999_999, 2_000_000]), [499_999, 500_000]);
    assert_eq!(mosts(&a, 1, [1_999_999, 2_000_000]), [1_999_999, 2_000_000]);
}

#[test]
fn table_b_is_as_worked() {
    let b = table_b();
    assert_eq!(leasts(&b, 1, [5, 6, 7, 11]), [0, 1, 2, 3]);
    assert_eq!(cycle(&b, 1), Ok((2, 2)));
    assert_eq!(waits(&b, 1, [1, 2, 3]), [6, 7, 11]);
    // `1 1` at a cycle's end, an idle root, `1 1` again.
    assert_eq!(mosts(&b, 1, [2, 3, 4, 5]), [2, 2, 3, 4]);
    assert_eq!(verdict(&b, 1), Ok(Verdict::Meets));
}

#[test]
fn figure_4_is_as_published() {
    let table = figure4();
    assert_eq!(leasts(&table, 1, [10, 13, 14, 15, 25, 26]), [0, 0, 1, 2, 2, 3]);
    assert_eq!(waits(&table, 1, [1, 2, 3]), [14, 15, 26]);
    assert_eq!((cycle(&table, 1), cycle(&table, 2)), (Ok((2, 5)), Ok((4, 4))));
    assert_eq!((cycle(&table, 3), cycle(&table, 4)), (Ok((3, 6)), Ok((0, 3))));
}

#[test]
fn a_window_may_meet_the_root_twice() {
    let table = table(1, 2, &[location(0, 0, 1, FULL), location(0, 1, 1, FULL)], &[]);
    assert_eq!(leasts(&table, 1, [1, 2, 3]), [0, 1, 1]);
}

#[test]
fn a_queue_that_no_location_names_gets_nothing() {
    let table = always(2, 3, &[task(2, 1, 5, 7)]);
    assert_eq!((cycle(&table, 2), least(&table, 2, 99), most(&table, 2, 99)), (Ok((0, 0)), Ok(0), Ok(0)));
    assert_eq!(verdict(&table, 2), short(5, 1, 0));
    assert_eq!(verdict(&table, 1), Ok(Verdict::Meets));
}

#[test]
fn filling_writes_the_first_entries_alone() {
    let b = table_b();
    let mut out = [9; 12];
    assert_eq!(fill(&b, 1, &mut out), Ok(()));
    assert_eq!(out, [0, 0, 0, 0, 0, 0, 1, 2, 2, 2, 9, 9]);
    let mut small = [9; 9];
    assert_eq!(fill(&b, 1, &mut small), refused(ROOM, 0));
    assert_eq!(fill(&b, 2, &mut small), refused(QUEUE, 0));
    assert_eq!(small, [9; 9]);
}

#[test]
fn demand_counts_what_is_released_and_due() {
    let a = table_a();
    let demands = [0, 3, 4, 7, 8, 2_000_000].map(|window| demand(&a, 1, window));
    assert_eq!(demands, [Ok(0), Ok(0), Ok(1), Ok(1), Ok(2), Ok(500_000)]);
    // Another queue's task adds nothing; two tasks add up: 3 at 5, 15 and 2 at 4, 11, 18.
    let table = always(2, 1, &[task(1, 3, 5, 10), task(2, 1, 1, 1), task(1, 2, 4, 7)]);
    let demands = [3, 4, 5, 10, 11, 15, 18].map(|window| demand(&table, 1, window));
    assert_eq!(demands, [Ok(0), Ok(2), Ok(5), Ok(5), Ok(7), Ok(10), Ok(12)]);
    // The largest demand: each task asks for every tick.
    assert_eq!(demand(&always(1, 1, &[task(1, 1, 1, 1); 32]), 1, 2_000_000), Ok(64_000_000));
}

#[test]
fn the_first_short_window_is_found_wherever_it_is() {
    // Each queue below has every tick, so the supply is t.
    assert_eq!(verdict(&always(1, 1, &[task(1, 2, 3, 9), task(1, 2, 3, 7)]), 1), short(3, 4, 3));
    // floor(t/2) + 2 floor(t/3) is above t at 6 first.
    assert_eq!(verdict(&always(1, 1, &[task(1, 1, 2, 2), task(1, 2, 3, 3)]), 1), short(6, 7, 6));
    // floor(t/2) + floor(t/3) + floor(t/5) is above t at 30 first.
    let three = [task(1, 1, 2, 2), task(1, 1, 3, 3), task(1, 1, 5, 5)];
    assert_eq!(verdict(&always(1, 1, &three), 1), short(30, 31, 30));
    // All ticks are used, and that is enough for ever.
    assert_eq!(verdict(&always(1, 1, &[task(1, 1, 2, 2), task(1, 2, 4, 4)]), 1), Ok(Verdict::Meets));
}

#[test]
fn a_deadline_need_not_be_a_multiple_of_anything() {
    // One tick of four: least is floor(t/4).
    let with = |task| table(1, 4, &[location(0, 1, 1, FULL), location(0, 0, 3, FULL)], &[task]);
    assert_eq!(verdict(&with(task(1, 100, 399, 1_000)), 1), short(399, 100, 99));
    assert_eq!(verdict(&with(task(1, 100, 400, 1_000)), 1), Ok(Verdict::Meets));
    assert_eq!(verdict(&with(task(1, 2, 7, 8)), 1), short(7, 2, 1));
    assert_eq!(verdict(&with(task(1, 2, 8, 8)), 1), Ok(Verdict::Meets));
}

#[test]
fn other_queues_tasks_do_not_change_a_verdict() {
    let mut a = table_a();
    a.tasks[1] = task(2, 3, 3, 3);
    a.task_count = 2;
    assert_eq!(verdict(&a, 1), Ok(Verdict::Meets));
    assert_eq!(verdict(&a, 2), short(3, 3, 0));
}

#[test]
fn the_horizon_is_a_million() {
    let a_with = |tasks: &[Task]| {
        let a = table_a();
        table(2, 4, a.locations(), tasks)
    };
    // 4 x 65,535 = 262,140 is within.
    assert_eq!(verdict(&a_with(&[task(1, 1, 4, 65_535)]), 1), Ok(Verdict::Meets));
    let two = a_with(&[task(1, 1, 4, 65_535), task(1, 1, 4, 65_533)]);
    assert_eq!(verdict(&two, 1), refused(HORIZON, 0));
    assert_eq!(verdict(&two, 2), Ok(Verdict::Meets));
    // 64 x 15,625 = 1,000,000 is allowed, 64 x 15,627 is above, also where a short window is plain to see.
    assert_eq!(verdict(&always(2, 64, &[task(1, 1, 1, 15_625)]), 1), Ok(Verdict::Meets));
    assert_eq!(verdict(&always(2, 64, &[task(1, 1, 1, 15_627)]), 1), refused(HORIZON, 0));
    assert_eq!(verdict(&always(2, 64, &[task(2, 1, 1, 15_627)]), 2), refused(HORIZON, 0));
    // A multiple of hundreds of bits: the gaps 65,504 to 65,535.
    let tasks: [Task; 32] = std::array::from_fn(|i| task(1, 1, 1, 65_504 + i as u16));
    assert_eq!(verdict(&always(1, 1_024, &tasks), 1), refused(HORIZON, 0));
}

#[test]
fn waits_go_beyond_the_longest_window() {
    // Queue 1 has a cycle's second tick or its last: 2 P - 2 for the first tick, then P for each.
    let early_or_late = [
        location(0, 0, 1, FULL),
        location(0, 1, 1, (0, 9)),
        location(0, 0, 1_022, (10, 65_535)),
        location(1, 0, 1_022, FULL),
        location(2, 1, 1, FULL),
    ];
    let table = table(1, 1_024, &early_or_late, &[]);
    assert_eq!(waits(&table, 1, [1, 2, 65_535]), [2_046, 3_070, 67_108_862]);
    assert_eq!(leasts(&table, 1, [2_045, 2_046, 2_000_000]), [0, 1, 1_952]);
}

#[test]
fn a_queue_asked_is_one_of_the_tables() {
    let a = table_a();
    for queue in [0, 3, 17, 257, u64::MAX] {
        assert_eq!(least(&a, queue, u64::MAX), refused(QUEUE, 0));
        assert_eq!(most(&a, queue, u64::MAX), refused(QUEUE, 0));
        assert_eq!(demand(&a, queue, u64::MAX), refused(QUEUE, 0));
        assert_eq!(wait(&a, queue, 0), refused(QUEUE, 0));
        assert_eq!(cycle(&a, queue), refused(QUEUE, 0));
        assert_eq!(verdict(&a, queue), refused(QUEUE, 0));
        assert_eq!(fill(&a, queue, &mut []), refused(QUEUE, 0));
    }
}

#[test]
fn amounts_have_limits() {
    let a = table_a();
    for window in [2_000_001, u64::MAX] {
        assert_eq!(least(&a, 1, window), refused(AMOUNT, 0));
        assert_eq!(most(&a, 1, window), refused(AMOUNT, 0));
        assert_eq!(demand(&a, 1, window), refused(AMOUNT, 0));
    }
    for ticks in [0, 65_536, u64::MAX] {
        assert_eq!(wait(&a, 1, ticks), refused(AMOUNT, 0));
        assert_eq!(wait(&a, 2, ticks), refused(AMOUNT, 0));
    }
    assert_eq!(wait(&a, 1, 65_535), Ok(262_140));
}

#[test]
fn every_question_judges_the_table_first() {
    let mut bad = table_a();
    bad.locations[2] = Location { ticks: 2, ..bad.locations[2] };
    assert_eq!(least(&bad, 0, u64::MAX), refused(PERIOD, 3));
    assert_eq!(most(&bad, 0, u64::MAX), refused(PERIOD, 3));
    assert_eq!(cycle(&bad, 0), refused(PERIOD, 3));
    assert_eq!(fill(&bad, 0, &mut []), refused(PERIOD, 3));
    assert_eq!(demand(&bad, 0, u64::MAX), refused(PERIOD, 3));
    assert_eq!(verdict(&bad, 0), refused(PERIOD, 3));
    assert_eq!(wait(&bad, 0, 0), refused(PERIOD, 3));
}

#[test]
fn the_listing_of_a_is_exact() {
    let lines = "tree 3 2 4 1\nqueue 1 1 4 meets\nqueue 2 0 3 meets\n";
    assert_eq!(listing(&record_a()), Ok(lines.into()));
    let mut due = record_a();
    due[50] = 3;
    let lines = "tree 3 2 4 1\nqueue 1 1 4 short 3 1 0\nqueue 2 0 3 meets\n";
    assert_eq!(listing(&due), Ok(lines.into()));
    assert_eq!(listing(&[]), refused(CUT, 0));
}
