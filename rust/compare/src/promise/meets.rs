//! All states that the runner reaches from the fresh one, over all choices of child and all allowed releases.

use std::collections::HashSet;

use domvurtesz::{State, Table};

use super::{children, values_to};

/// How many states there are, and the tasks that are late in some step between them.
pub struct Reached {
    pub states: u64,
    pub late: u32,
}

pub fn search(table: &Table) -> Reached {
    let fresh = State::fresh(table).expect("the table is well formed");
    let mut met = HashSet::from([fresh]);
    let mut open = vec![fresh];
    let mut late = 0;
    while let Some(state) = open.pop() {
        for values in values(table, &state) {
            for released in subsets(ready(table, &state)) {
                let step = state.step(table, values, released).expect("the step is allowed");
                late |= step.late;
                if met.insert(step.state) {
                    open.push(step.state);
                }
            }
        }
    }
    Reached { states: met.len() as u64, late }
}

/// Values for each way on: where the location goes on, and after a leaf, there is one.
fn values(table: &Table, state: &State) -> Vec<[u16; State::VARIABLES]> {
    let v = usize::from(state.location);
    let children = children(table, v);
    if children.is_empty() || state.done + 1 < table.location[v].ticks {
        return vec![[0; State::VARIABLES]];
    }
    children.into_iter().map(|child| values_to(table, v, child)).collect()
}

/// The tasks that may be released.
fn ready(table: &Table, state: &State) -> u32 {
    let tasks = table.counted_tasks().iter().enumerate();
    tasks.filter(|(i, task)| state.jobs[*i].since >= task.gap).fold(0, |set, (i, _)| set | 1 << i)
}

/// Every part of a set: the next lower number, kept within the set, down to none.
fn subsets(set: u32) -> impl Iterator<Item = u32> {
    std::iter::successors(Some(set), move |part| part.checked_sub(1).map(|lower| lower & set))
}
