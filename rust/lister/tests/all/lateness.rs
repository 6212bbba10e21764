//! What a verdict promises, tried on tiny tables in every state that the runner can reach.

use std::collections::HashSet;

use lister::{State, Table, Verdict, verdict};

use crate::random::Random;
use crate::samples::{always, table_a, table_a_due, task};

/// The set of all tasks that are late in some step from the fresh state, over all values and releases.
fn ever_late(table: &Table) -> u32 {
    // Each guard's low end leads wherever some value leads.
    let values: HashSet<u16> = table.locations().iter().map(|location| location.low).collect();
    let sets = 1 << table.task_count;
    let fresh = State::fresh(table).unwrap();
    let mut met = HashSet::from([fresh]);
    let mut open = vec![fresh];
    let mut late = 0;
    while let Some(state) = open.pop() {
        for &value in &values {
            let steps = (0..sets).filter_map(|released| state.step(table, [value; 8], released).ok());
            for step in steps {
                late |= step.late;
                if met.insert(step.state) {
                    open.push(step.state);
                }
            }
        }
    }
    late
}

/// Under MEETS no job of a queue is ever late, under SHORT some job can be.
fn keeps_its_promise(table: &Table) {
    let late = ever_late(table);
    for queue in 1..=table.queues {
        let is_late =
            table.tasks().iter().enumerate().any(|(i, task)| task.queue == queue && late >> i & 1 == 1);
        let meets = verdict(table, queue.into()) == Ok(Verdict::Meets);
        assert_eq!(is_late, !meets, "{queue} {table:?}");
    }
}

#[test]
fn table_a_keeps_its_promise() {
    assert_eq!(ever_late(&table_a()), 0);
    assert_eq!(ever_late(&table_a_due(3)), 1);
    keeps_its_promise(&table_a());
    keeps_its_promise(&table_a_due(3));
}

#[test]
fn full_use_keeps_its_promise() {
    keeps_its_promise(&always(1, 1, &[task(1, 1, 2, 2), task(1, 2, 4, 4)]));
    keeps_its_promise(&always(1, 1, &[task(1, 1, 2, 2), task(1, 2, 3, 4)]));
}

#[test]
fn random_tiny_tables_keep_their_promises() {
    let mut random = Random::new(5);
    for _ in 0..60 {
        let period = 1 + random.below(4) as u16;
        keeps_its_promise(&random.table(period, 4, 2, 5));
    }
}
