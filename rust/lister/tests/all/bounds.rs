//! The two ways to the bounds against each other, and what both have to obey.

use lister::bounds::{Supply, stepped};
use lister::demand::{first_short, tasks_of};
use lister::runs::{self, Side};
use lister::{Table, cycle, verdict};

use crate::random::Random;
use crate::samples::{figure4, table_a, table_b};

/// The samples and some random trees, all small enough to list their runs.
fn small_tables() -> Vec<Table> {
    let mut random = Random::new(2);
    let mut tables = vec![table_a(), table_b(), figure4()];
    while tables.len() < 150 {
        let period = 1 + random.below(7) as u16;
        let table = random.table(period, 7, 3, 8);
        if table.leaves().len() <= 4 {
            tables.push(table);
        }
    }
    tables
}

fn queues(table: &Table) -> std::ops::RangeInclusive<u8> {
    1..=table.queues
}

#[test]
fn stepping_finds_what_listing_finds() {
    for table in small_tables() {
        let windows = 3 * usize::from(table.period) + 1;
        for queue in queues(&table) {
            for side in [Side::Least, Side::Most] {
                let listed: Vec<u64> =
                    (0..windows).map(|window| runs::bound(&table, queue, window, side)).collect();
                assert_eq!(stepped(&table, queue, windows, side), listed, "{side:?} {queue} {table:?}");
            }
        }
    }
}

#[test]
fn the_law_of_the_period_holds_from_p_on() {
    for table in small_tables() {
        let period = usize::from(table.period);
        for queue in queues(&table) {
            let (cycle_least, cycle_most) = cycle(&table, queue.into()).unwrap();
            for (side, cycle) in [(Side::Least, cycle_least), (Side::Most, cycle_most)] {
                let bounds = stepped(&table, queue, 8 * period, side);
                for window in period..7 * period {
                    assert_eq!(bounds[window + period], bounds[window] + cycle, "{window} {table:?}");
                }
            }
        }
    }
}

#[test]
fn supply_is_the_bound_at_every_window() {
    for table in small_tables() {
        let windows = 6 * usize::from(table.period);
        for queue in queues(&table) {
            for side in [Side::Least, Side::Most] {
                let supply = Supply::new(&table, queue, side);
                let bounds: Vec<u64> = (0..windows as u64).map(|window| supply.at(window)).collect();
                assert_eq!(bounds, stepped(&table, queue, windows, side), "{side:?} {queue} {table:?}");
            }
        }
    }
}

#[test]
fn the_law_of_the_period_can_fail_below_p() {
    let leasts = stepped(&table_b(), 1, 12, Side::Least);
    // Cycle least is 2, but least grows by 1 from 1 to 6.
    assert_eq!((leasts[1], leasts[6]), (0, 1));
}

#[test]
fn two_windows_hold_no_less_than_their_leasts() {
    for table in small_tables() {
        let windows = 5 * usize::from(table.period);
        for queue in queues(&table) {
            let least = stepped(&table, queue, windows, Side::Least);
            let most = stepped(&table, queue, windows, Side::Most);
            for first in 0..windows {
                assert!(least[first] <= most[first] && most[first] <= first as u64);
                for second in 0..windows - first {
                    assert!(least[first + second] >= least[first] + least[second]);
                    assert!(most[first + second] <= most[first] + most[second]);
                }
            }
        }
    }
}

#[test]
fn nothing_new_is_short_far_beyond_the_multiple() {
    for table in small_tables() {
        for queue in queues(&table) {
            let tasks = tasks_of(&table, queue);
            let multiple = tasks.iter().fold(u64::from(table.period), |multiple, task| {
                (1..).map(|n| n * multiple).find(|n| n % u64::from(task.gap) == 0).unwrap()
            });
            let supply = Supply::new(&table, queue, Side::Least);
            let far = first_short(&tasks, &supply, 4 * (multiple + u64::from(table.period)));
            let near = verdict(&table, queue.into()).unwrap();
            assert_eq!(near, far.unwrap_or(lister::Verdict::Meets), "{queue} {table:?}");
        }
    }
}

#[test]
fn stepping_and_listing_agree_on_a_larger_tree() {
    let mut random = Random::new(3);
    for _ in 0..10 {
        let table = random.table(60, 14, 0, 1);
        let side = Side::Least;
        let steps = stepped(&table, 1, 90, side);
        for window in [1, 29, 59, 60, 61, 89] {
            assert_eq!(steps[window], runs::bound(&table, 1, window, side), "{window} {table:?}");
        }
    }
}
