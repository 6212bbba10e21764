//! The runner: the four rules of a step, lawful states, and the refusals STATE and EARLY.

use lister::refusal::{EARLY, PERIOD, STATE};
use lister::{Job, State, Step, Table};

use crate::random::Random;
use crate::samples::{FULL, always, location, refused, table, table_a, table_a_due, table_b, task};

/// Queue granted, task served and late set.
type Answer = (u8, Option<usize>, u32);

/// All steps from the fresh state, each with its value of every variable and its released set.
fn answers(table: &Table, inputs: &[(u16, u32)]) -> Vec<Answer> {
    let mut state = State::fresh(table).unwrap();
    let mut step = |&(value, released): &(u16, u32)| {
        let step = state.step(table, [value; 8], released).unwrap();
        state = step.state;
        (step.queue, step.task, step.late)
    };
    inputs.iter().map(&mut step).collect()
}

/// Table A's state with its one job.
fn state_a(location: u32, done: u32, since: u32, remaining: u32, left: u32) -> State {
    let mut jobs = [Job::default(); Table::TASKS];
    jobs[0] = Job { since, remaining, left };
    State { location, done, jobs }
}

fn is_lawful(table: &Table, state: State) -> bool {
    let answer = state.step(table, [0; 8], 0);
    assert!(answer.is_ok() || answer == refused(STATE, 0));
    answer.is_ok()
}

#[test]
fn the_fresh_state_has_no_work() {
    assert_eq!(State::fresh(&table_a()), Ok(state_a(0, 0, 4, 0, 0)));
    assert_eq!(State::fresh(&table_b()), Ok(state_a(0, 0, 0, 0, 0)));
    let mut bad = table_a();
    bad.locations[2].ticks = 2;
    assert_eq!(State::fresh(&bad), refused(PERIOD, 3));
}

#[test]
fn steps_of_a_are_as_worked() {
    let inputs = [(100, 1), (100, 0), (100, 0), (100, 0), (100, 1)];
    let expected = [(1, Some(0), 0), (2, None, 0), (2, None, 0), (2, None, 0), (1, Some(0), 0)];
    assert_eq!(answers(&table_a(), &inputs), expected);
}

#[test]
fn one_step_moves_the_whole_state() {
    let a = table_a();
    let fresh = State::fresh(&a).unwrap();
    let first = fresh.step(&a, [100, 0, 0, 0, 0, 0, 0, 0], 1);
    assert_eq!(first, Ok(Step { state: state_a(2, 0, 1, 0, 0), queue: 1, task: Some(0), late: 0 }));
    let idle = fresh.step(&a, [99, 100, 100, 100, 100, 100, 100, 100], 0);
    assert_eq!(idle, Ok(Step { state: state_a(1, 0, 4, 0, 0), queue: 1, task: None, late: 0 }));
    let waiting = state_a(2, 0, 4, 0, 0).step(&a, [0; 8], 1);
    assert_eq!(waiting, Ok(Step { state: state_a(2, 1, 1, 1, 3), queue: 2, task: None, late: 0 }));
    let leaf = state_a(2, 2, 3, 1, 1).step(&a, [0; 8], 0);
    assert_eq!(leaf, Ok(Step { state: state_a(0, 0, 4, 0, 0), queue: 2, task: None, late: 1 }));
}

#[test]
fn a_late_job_is_named_once_and_dropped() {
    let inputs = [(100, 0), (100, 1), (100, 0), (100, 0), (100, 0), (0, 1)];
    let expected = [(1, None, 0), (2, None, 0), (2, None, 0), (2, None, 1), (1, None, 0), (2, None, 0)];
    assert_eq!(answers(&table_a_due(3), &inputs), expected);
}

#[test]
fn a_job_can_be_released_and_late_in_one_step() {
    let table = table(2, 2, &[location(0, 2, 2, FULL)], &[task(1, 1, 1, 1), task(2, 1, 1, 1)]);
    assert_eq!(answers(&table, &[(0, 3), (0, 1), (0, 2)]), [(2, Some(1), 1), (2, None, 1), (2, Some(1), 0)]);
}

#[test]
fn a_job_that_is_served_and_not_finished_is_late() {
    let half = [location(0, 1, 1, FULL), location(0, 0, 1, FULL)];
    let answers = answers(&table(1, 2, &half, &[task(1, 2, 2, 2)]), &[(0, 1), (0, 0), (0, 0)]);
    assert_eq!(answers, [(1, Some(0), 0), (0, None, 1), (1, None, 0)]);
}

#[test]
fn the_least_left_is_served_and_of_equals_the_lower_task() {
    let table = always(1, 1, &[task(1, 2, 9, 9), task(1, 1, 5, 9), task(1, 1, 5, 9), task(1, 1, 4, 9)]);
    let answers = answers(&table, &[(0, 0b0111), (0, 0), (0, 0b1000), (0, 0), (0, 0), (0, 0)]);
    let tasks: Vec<_> = answers.iter().map(|answer| answer.1).collect();
    // Released with 9, 5, 5: tasks 1 and 2 first. Task 3 comes with 4 when task 0 has 7 left.
    assert_eq!(tasks, [Some(1), Some(2), Some(3), Some(0), Some(0), None]);
}

#[test]
fn an_unserved_job_is_late_in_spite_of_another() {
    let table = always(1, 1, &[task(1, 2, 2, 4), task(1, 1, 2, 4)]);
    let expected = [(1, Some(0), 0), (1, Some(0), 0b10), (1, None, 0)];
    assert_eq!(answers(&table, &[(0, 0b11), (0, 0), (0, 0)]), expected);
}

#[test]
fn the_variable_of_the_location_chooses_at_its_last_tick() {
    let mut locations = [
        location(0, 0, 2, FULL),
        location(0, 1, 1, (5, 5)),
        location(0, 2, 1, (0, 4)),
        location(0, 3, 1, (6, 65_535)),
    ];
    locations[0].variable = 3;
    let table = table(3, 3, &locations, &[]);
    for (chosen, queue) in [(0, 2), (4, 2), (5, 1), (6, 3), (65_535, 3)] {
        let mut values = [5; 8];
        let mut state = State::fresh(&table).unwrap();
        state = state.step(&table, values, 0).unwrap().state;
        values[3] = chosen;
        state = state.step(&table, values, 0).unwrap().state;
        let leaf = state.step(&table, [0; 8], 0).unwrap();
        assert_eq!((leaf.queue, leaf.state.location, leaf.state.done), (queue, 0, 0));
    }
}

#[test]
fn a_release_is_lawful_a_gap_after_the_last() {
    let a = table_a();
    let mut state = State::fresh(&a).unwrap().step(&a, [0; 8], 1).unwrap().state;
    for _ in 0..3 {
        assert_eq!(state.step(&a, [0; 8], 1), refused(EARLY, 0));
        state = state.step(&a, [0; 8], 0).unwrap().state;
    }
    assert!(state.step(&a, [0; 8], 1).is_ok());
}

#[test]
fn the_lowest_early_task_is_named() {
    let table = always(1, 1, &[task(1, 1, 5, 5), task(1, 1, 5, 5)]);
    let fresh = State::fresh(&table).unwrap();
    assert_eq!(fresh.step(&table, [0; 8], 0b100), refused(EARLY, 2));
    assert_eq!(fresh.step(&table, [0; 8], 1 << 31), refused(EARLY, 31));
    let second = fresh.step(&table, [0; 8], 0b10).unwrap().state;
    assert_eq!(second.step(&table, [0; 8], 0b111), refused(EARLY, 1));
    assert_eq!(second.step(&table, [0; 8], 0b101), refused(EARLY, 2));
}

#[test]
fn lawful_is_as_written() {
    let a = table_a();
    assert!(is_lawful(&a, state_a(0, 0, 0, 0, 0)));
    assert!(is_lawful(&a, state_a(2, 2, 4, 0, 0)));
    assert!(is_lawful(&a, state_a(1, 0, 3, 1, 1)));
    assert!(is_lawful(&a, state_a(1, 0, 0, 1, 4)));
    let unlawful = [
        state_a(3, 0, 4, 0, 0),
        state_a(u32::MAX, 0, 4, 0, 0),
        state_a(0, 1, 4, 0, 0),
        state_a(2, 3, 4, 0, 0),
        state_a(0, 0, 5, 0, 0),
        state_a(0, 0, 3, 1, 0),
        state_a(0, 0, 3, 0, 1),
        state_a(0, 0, 3, 2, 1),
        state_a(0, 0, 2, 1, 1),
        state_a(0, 0, 4, 1, 0),
        state_a(0, 0, u32::MAX, 1, 5),
    ];
    for state in unlawful {
        assert!(!is_lawful(&a, state), "{state:?}");
    }
}

#[test]
fn entries_past_the_tasks_are_zero() {
    let a = table_a();
    for i in [1, 31] {
        let mut state = State::fresh(&a).unwrap();
        state.jobs[i].since = 1;
        assert!(!is_lawful(&a, state));
    }
}

#[test]
fn since_and_left_do_not_wrap() {
    // 40,000 + 40,000 is 14,464 more than 65,536.
    let table = always(1, 1, &[task(1, 1, 14_464, 40_000)]);
    assert!(!is_lawful(&table, state_a(0, 0, 40_000, 1, 40_000)));
    assert!(!is_lawful(&table, state_a(0, 0, 1, 1, u32::MAX)));
    assert!(is_lawful(&table, state_a(0, 0, 1, 1, 14_463)));
}

#[test]
fn a_step_refuses_by_table_then_state_then_release() {
    let mut table = table_a();
    let state = state_a(9, 9, 9, 9, 9);
    assert_eq!(state.step(&table, [0; 8], 2), refused(STATE, 0));
    table.locations[2].ticks = 2;
    assert_eq!(state.step(&table, [0; 8], 2), refused(PERIOD, 3));
}

#[test]
fn under_meets_a_lawful_state_can_still_be_late() {
    let a = table_a();
    let late = state_a(2, 2, 3, 1, 1).step(&a, [0; 8], 0).unwrap().late;
    assert_eq!((lister::verdict(&a, 1), late), (Ok(lister::Verdict::Meets), 1));
}

#[test]
fn accepted_steps_lead_to_lawful_states() {
    let mut random = Random::new(4);
    for _ in 0..40 {
        let table = random.table(6, 6, 4, 9);
        let mut state = State::fresh(&table).unwrap();
        for _ in 0..60 {
            let values = [(); 8].map(|()| random.below(65_536) as u16);
            // Any release that is early is refused and changes nothing; none at all is always lawful.
            let released = random.below(16) as u32;
            let step = state.step(&table, values, released);
            state = step.unwrap_or_else(|_| state.step(&table, values, 0).unwrap()).state;
        }
    }
}
