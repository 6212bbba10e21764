//! Judging tables: the refusals 3 to 9, each at several places, and which of two is given.

use lister::refusal::*;
use lister::{Location, Refusal, State, Table, Task, judge, least};

use crate::samples::{FULL, always, figure4, location, refused, table, table_a, table_b, task};

/// What judging says of table A after a change to it.
fn changed(change: impl Fn(&mut Table)) -> Result<(), Refusal> {
    let mut table = table_a();
    change(&mut table);
    judge(&table)
}

fn at_location(v: usize, change: impl Fn(&mut Location)) -> Result<(), Refusal> {
    changed(|table| change(&mut table.locations[v]))
}

fn at_task(change: impl Fn(&mut Task)) -> Result<(), Refusal> {
    changed(|table| change(&mut table.tasks[0]))
}

#[test]
fn the_sixteen_numbers_have_their_names() {
    let names = [
        CUT, FIELD, COUNT, VALUE, SHAPE, GAP, OVERLAP, PERIOD, TASK, QUEUE, AMOUNT, NEVER, HORIZON, STATE,
        EARLY, ROOM,
    ];
    assert_eq!(names, [1, 2, 3, 4, 5, 6, 7, 8, 9, 10, 11, 12, 13, 14, 15, 16]);
}

#[test]
fn the_sample_tables_are_accepted() {
    for table in [table_a(), table_b(), figure4()] {
        assert_eq!(judge(&table), Ok(()));
    }
}

#[test]
fn counts_have_limits() {
    for count in [0, 129, usize::MAX] {
        assert_eq!(changed(|table| table.location_count = count), refused(COUNT, 0));
    }
    for count in [33, usize::MAX] {
        assert_eq!(changed(|table| table.task_count = count), refused(COUNT, 0));
    }
    assert_eq!(judge(&Table::empty()), refused(COUNT, 0));
    // Nothing else is looked at, and every question says the same.
    let mut table = Table::empty();
    table.location_count = 129;
    table.version = 9;
    assert_eq!(least(&table, 0, u64::MAX), refused(COUNT, 0));
    assert_eq!(State::fresh(&table), refused(COUNT, 0));
}

#[test]
fn values_have_limits() {
    assert_eq!(changed(|table| table.version = 0), refused(VALUE, 0));
    assert_eq!(changed(|table| table.version = 2), refused(VALUE, 0));
    assert_eq!(changed(|table| table.queues = 0), refused(VALUE, 0));
    assert_eq!(changed(|table| table.queues = 17), refused(VALUE, 0));
    assert_eq!(changed(|table| table.queues = 16), Ok(()));
    assert_eq!(changed(|table| table.period = 0), refused(VALUE, 0));
    assert_eq!(changed(|table| table.period = 1_025), refused(VALUE, 0));
    for v in 0..3 {
        let place = v + 1;
        assert_eq!(at_location(v, |l| l.ticks = 0), refused(VALUE, place));
        assert_eq!(at_location(v, |l| l.ticks = 1_025), refused(VALUE, place));
        assert_eq!(at_location(v, |l| l.queue = 3), refused(VALUE, place));
        assert_eq!(at_location(v, |l| l.queue = 0), Ok(()));
        assert_eq!(at_location(v, |l| l.variable = 8), refused(VALUE, place));
        assert_eq!(at_location(v, |l| (l.low, l.high) = (5, 4)), refused(VALUE, place));
    }
}

#[test]
fn the_tree_has_a_shape() {
    assert_eq!(at_location(0, |l| l.parent = 1), refused(SHAPE, 1));
    assert_eq!(at_location(0, |l| l.low = 1), refused(SHAPE, 1));
    assert_eq!(at_location(0, |l| l.high = 65_534), refused(SHAPE, 1));
    assert_eq!(at_location(1, |l| l.parent = 1), refused(SHAPE, 2));
    assert_eq!(at_location(1, |l| l.parent = 2), refused(SHAPE, 2));
    assert_eq!(at_location(2, |l| l.parent = 255), refused(SHAPE, 3));
    assert_eq!(at_location(2, |l| l.variable = 1), refused(SHAPE, 3));
    assert_eq!(at_location(0, |l| l.variable = 7), Ok(()));
    let mut alone = always(1, 4, &[]);
    alone.locations[0].variable = 1;
    assert_eq!(judge(&alone), refused(SHAPE, 1));
}

#[test]
fn guards_hold_each_value_once() {
    assert_eq!(at_location(2, |l| l.low = 101), refused(GAP, 1));
    assert_eq!(at_location(2, |l| l.low = 99), refused(OVERLAP, 1));
    assert_eq!(at_location(1, |l| l.low = 1), refused(GAP, 1));
    assert_eq!(at_location(2, |l| l.high = 65_534), refused(GAP, 1));
    assert_eq!(at_location(1, |l| l.high = 65_535), refused(OVERLAP, 1));
    // The widths sum to 65,536, but value 0 is in none and value 101 in two.
    assert_eq!(at_location(1, |l| (l.low, l.high) = (2, 101)), refused(GAP, 1));
    // A single child has to hold every value.
    assert_eq!(changed(|table| table.location_count = 2), refused(GAP, 1));
}

#[test]
fn siblings_stand_in_any_order() {
    let parts = [location(0, 1, 1, FULL), location(0, 1, 1, (200, 65_535)), location(0, 1, 1, (0, 99))];
    let with = |guard| table(1, 2, &[parts[0], parts[1], parts[2], location(0, 1, 1, guard)], &[]);
    assert_eq!(judge(&with((100, 199))), Ok(()));
    assert_eq!(judge(&with((100, 198))), refused(GAP, 1));
    assert_eq!(judge(&with((99, 199))), refused(OVERLAP, 1));
}

#[test]
fn paths_sum_to_the_period() {
    assert_eq!(at_location(2, |l| l.ticks = 2), refused(PERIOD, 3));
    assert_eq!(at_location(1, |l| l.ticks = 4), refused(PERIOD, 2));
    assert_eq!(at_location(0, |l| l.ticks = 2), refused(PERIOD, 2));
    assert_eq!(changed(|table| table.period = 5), refused(PERIOD, 2));
}

#[test]
fn long_paths_do_not_wrap() {
    // 65 x 1,024 is 1,024 more than 65,536.
    let mut chain = vec![location(0, 1, 1_024, FULL)];
    for parent in 0..64 {
        chain.push(location(parent, 1, 1_024, FULL));
    }
    assert_eq!(judge(&table(1, 1_024, &chain, &[])), refused(PERIOD, 65));
    for parent in 64..127 {
        chain.push(location(parent, 1, 1_024, FULL));
    }
    assert_eq!(judge(&table(1, 1_024, &chain, &[])), refused(PERIOD, 128));
}

#[test]
fn tasks_are_in_order() {
    assert_eq!(at_task(|t| t.queue = 0), refused(TASK, 4));
    assert_eq!(at_task(|t| t.queue = 3), refused(TASK, 4));
    assert_eq!(at_task(|t| t.work = 0), refused(TASK, 4));
    assert_eq!(at_task(|t| t.work = 5), refused(TASK, 4));
    assert_eq!(at_task(|t| t.deadline = 5), refused(TASK, 4));
    assert_eq!(at_task(|t| t.gap = 3), refused(TASK, 4));
    assert_eq!(judge(&always(1, 4, &[task(1, 1, 1, 1), task(1, 2, 1, 1)])), refused(TASK, 3));
}

#[test]
fn the_lowest_number_decides_before_the_lowest_place() {
    // The root's guards overlap, location 1 has a gap below it: GAP at 2 hides OVERLAP at 1.
    let locations = [
        location(0, 1, 1, FULL),
        location(0, 1, 1, (0, 100)),
        location(0, 1, 2, (100, 65_535)),
        location(1, 1, 1, (0, 65_534)),
    ];
    let mut table = table(1, 3, &locations, &[task(0, 0, 0, 0)]);
    assert_eq!(judge(&table), refused(GAP, 2));
    table.locations[3].high = 65_535;
    assert_eq!(judge(&table), refused(OVERLAP, 1));
    table.locations[2].low = 101;
    table.locations[3].ticks = 2;
    assert_eq!(judge(&table), refused(PERIOD, 4));
    table.locations[3].ticks = 1;
    assert_eq!(judge(&table), refused(TASK, 5));
    table.locations[2].variable = 1;
    assert_eq!(judge(&table), refused(SHAPE, 3));
    table.locations[3].queue = 2;
    assert_eq!(judge(&table), refused(VALUE, 4));
    table.task_count = 33;
    assert_eq!(judge(&table), refused(COUNT, 0));
}
