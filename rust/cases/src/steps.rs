//! Cases of the runner. Beside each stands what docs/RULES.md gives, worked out by hand: for each step the queue
//! granted, the task served and the late set, and then the state, without the jobs that are all zeros.

use lister::{Job, State};

use crate::case::{Case, told};
use crate::question::{Question, Tick};
use crate::sample::{Sample, a, b, one, task};

pub fn all() -> Vec<Case> {
    let groups = [
        branches(),
        service(),
        lateness(),
        releases(),
        all_tasks(),
        places(),
        jobs(),
        past_the_tasks(),
        lawful(),
        judged(),
    ];
    groups.into_iter().flatten().collect()
}

/// A step with variable 0 at `value` and the others at 0.
fn tick(value: u16, released: u32) -> Tick {
    ([value, 0, 0, 0, 0, 0, 0, 0], released)
}

/// So many steps without a release.
fn idle(value: u16, count: usize) -> Vec<Tick> {
    vec![tick(value, 0); count]
}

fn fresh(name: &str, sample: &Sample, ticks: &[Tick], words: &str) -> Case {
    told(&format!("steps-{name}"), sample.bytes(), Question::Fresh(ticks.into()), words)
}

fn given(name: &str, sample: &Sample, state: State, ticks: &[Tick], words: &str) -> Case {
    told(&format!("steps-{name}"), sample.bytes(), Question::Given(state, ticks.into()), words)
}

/// A state with the jobs of the first tasks, each as since, remaining and left.
fn state(location: u32, done: u32, jobs: &[(u32, u32, u32)]) -> State {
    let mut all = [Job::default(); 32];
    for (job, &(since, remaining, left)) in all.iter_mut().zip(jobs) {
        *job = Job { since, remaining, left };
    }
    State { location, done, jobs: all }
}

/// Table A with one task of queue 1.
fn a_with(work: u16, deadline: u16, gap: u16) -> Sample {
    a().with(|s| s.tasks = vec![task(1, work, deadline, gap)])
}

fn branches() -> Vec<Case> {
    let a = a();
    let seventh = a.with(|s| s.locations[0].variable = 7);
    let at_root = |value: u16| fresh(&format!("a-value-{value}"), &a, &[tick(value, 0)], root_words(value));
    let two = [vec![tick(9, 0)], idle(65_535, 4), vec![tick(10, 0)], idle(0, 4)].concat();
    vec![
        // The rules' own steps of A.
        fresh(
            "a-rules",
            &a,
            &[tick(100, 1), tick(100, 0), tick(100, 0), tick(100, 0), tick(100, 1)],
            "1 0 0, 2 - 0, 2 - 0, 2 - 0, 1 0 0, at 2 0 job 0 1 0 0",
        ),
        // Values count at a location's last tick only: 500 does not leave location 1, nor 0 location 2.
        fresh(
            "a-two-cycles",
            &a,
            &[vec![tick(99, 1)], idle(500, 3), vec![tick(100, 1)], idle(0, 3)].concat(),
            "1 0 0, 1 - 0, 1 - 0, 1 - 0, 1 0 0, 2 - 0, 2 - 0, 2 - 0, at 0 0 job 0 4 0 0",
        ),
        fresh(
            "b-two-cycles",
            &b(),
            &two,
            "0 - 0, 1 - 0, 1 - 0, 0 - 0, 0 - 0, 0 - 0, 0 - 0, 0 - 0, 1 - 0, 1 - 0, at 0 0",
        ),
        at_root(0),
        at_root(99),
        at_root(100),
        at_root(65_535),
        fresh(
            "variable-7-at-99",
            &seventh,
            &[([100, 100, 100, 100, 100, 100, 100, 99], 0)],
            "1 - 0, at 1 0 job 0 4 0 0",
        ),
        fresh("variable-7-at-100", &seventh, &[([0, 0, 0, 0, 0, 0, 0, 100], 0)], "1 - 0, at 2 0 job 0 4 0 0"),
        fresh("none", &a, &[], "at 0 0 job 0 4 0 0"),
    ]
}

/// Below 100 location 1 comes next, else location 2.
fn root_words(value: u16) -> &'static str {
    if value < 100 { "1 - 0, at 1 0 job 0 4 0 0" } else { "1 - 0, at 2 0 job 0 4 0 0" }
}

/// Rule 2: the least left, of equals the lower task.
fn service() -> Vec<Case> {
    let all_ticks = |tasks: [(u16, u16, u16); 2]| {
        let tasks = tasks.map(|(work, deadline, gap)| task(1, work, deadline, gap));
        one(4).with(|s| s.tasks = tasks.into())
    };
    let both = [tick(0, 3), tick(0, 0)];
    vec![
        fresh(
            "tie",
            &all_ticks([(1, 2, 3), (1, 2, 3)]),
            &both,
            "1 0 0, 1 1 0, at 0 2 job 0 2 0 0 job 1 2 0 0",
        ),
        fresh(
            "higher-task-due-first",
            &all_ticks([(1, 3, 3), (1, 2, 3)]),
            &both,
            "1 1 0, 1 0 0, at 0 2 job 0 2 0 0 job 1 2 0 0",
        ),
        // Task 0 has left 2 after its first step, as task 1 has at its release.
        fresh(
            "tie-after-a-step",
            &all_ticks([(2, 3, 4), (1, 2, 4)]),
            &[tick(0, 1), tick(0, 2), tick(0, 0)],
            "1 0 0, 1 0 0, 1 1 0, at 0 3 job 0 3 0 0 job 1 2 0 0",
        ),
        fresh(
            "work-of-3",
            &a_with(3, 4, 4),
            &[vec![tick(99, 1)], idle(99, 3)].concat(),
            "1 0 0, 1 0 0, 1 0 0, 1 - 0, at 0 0 job 0 4 0 0",
        ),
        fresh("work-remains", &a_with(3, 4, 4), &[tick(99, 1)], "1 0 0, at 1 0 job 0 1 2 3"),
        // Released in step 2, served by the next cycle's root just in time.
        fresh(
            "served-at-the-deadline",
            &a(),
            &[tick(100, 0), tick(100, 1), tick(100, 0), tick(100, 0), tick(99, 0)],
            "1 - 0, 2 - 0, 2 - 0, 2 - 0, 1 0 0, at 1 0 job 0 4 0 0",
        ),
        // A job of another queue does not get the tick.
        fresh(
            "other-queue-waits",
            &a().with(|s| s.tasks = vec![task(2, 1, 2, 4), task(1, 1, 4, 4)]),
            &[tick(100, 3), tick(100, 0)],
            "1 1 0, 2 0 0, at 2 1 job 0 2 0 0 job 1 2 0 0",
        ),
    ]
}

/// Rule 3: late, named and dropped.
fn lateness() -> Vec<Case> {
    let two_queues = a().with(|s| s.tasks.push(task(2, 1, 1, 4)));
    let from_step_2 = [tick(100, 0), tick(100, 1), tick(100, 0), tick(100, 0)];
    vec![
        fresh(
            "a-deadline-3",
            &a_with(1, 3, 4),
            &from_step_2,
            "1 - 0, 2 - 0, 2 - 0, 2 - 1, at 0 0 job 0 3 0 0",
        ),
        fresh(
            "late-with-work-done",
            &a_with(3, 4, 4),
            &[vec![tick(100, 1)], idle(100, 3)].concat(),
            LATE_WITH_WORK,
        ),
        fresh("deadline-1-late", &a_with(1, 1, 4), &from_step_2[..2], "1 - 0, 2 - 1, at 2 1 job 0 1 0 0"),
        fresh("deadline-1-served", &a_with(1, 1, 4), &[tick(100, 1)], "1 0 0, at 2 0 job 0 1 0 0"),
        // One is served while the other queue's job is late.
        fresh("late-beside-service", &two_queues, &[tick(100, 3)], "1 0 2, at 2 0 job 0 1 0 0 job 1 1 0 0"),
        // Late in step 4, early in step 5, released again in step 6 and late again.
        fresh(
            "dropped-and-released-again",
            &a_with(1, 3, 4),
            &[&from_step_2[..], &[tick(100, 1)], &from_step_2[..]].concat(),
            "1 - 0, 2 - 0, 2 - 0, 2 - 1, refused 15 0, 1 - 0, 2 - 0, 2 - 0, 2 - 1, at 0 0 job 0 3 0 0",
        ),
    ]
}

/// One of three ticks of work is done in time.
const LATE_WITH_WORK: &str = "1 0 0, 2 - 0, 2 - 0, 2 - 1, at 0 0 job 0 4 0 0";

/// EARLY, with the lowest offending task as place. The step after a refused one starts from the same state.
fn releases() -> Vec<Case> {
    let high = 1 << 31;
    let early = |name: &str, released: u32, place: &str| {
        fresh(name, &a(), &[tick(100, released)], &format!("refused 15 {place}, at 0 0 job 0 4 0 0"))
    };
    vec![
        fresh(
            "early-at-3-of-4",
            &a(),
            &[tick(100, 1), tick(100, 0), tick(100, 0), tick(100, 1), tick(100, 0), tick(100, 1)],
            "1 0 0, 2 - 0, 2 - 0, refused 15 0, 2 - 0, 1 0 0, at 2 0 job 0 1 0 0",
        ),
        fresh("gap-1", &a_with(1, 1, 1), &[tick(0, 1); 3], "1 0 0, 1 0 0, 1 0 0, at 1 2 job 0 1 0 0"),
        early("early-bit-31", high, "31"),
        early("early-bit-1", 2, "1"),
        early("early-bits-0-and-31", high + 1, "31"),
        early("early-bits-1-and-31", high + 2, "1"),
        early("early-all-bits", u32::MAX, "1"),
        fresh(
            "early-task-0-and-31",
            &a(),
            &[tick(100, 1), tick(100, high + 1)],
            "1 0 0, refused 15 0, at 2 0 job 0 1 0 0",
        ),
        fresh("early-without-tasks", &b(), &[tick(0, 1)], "refused 15 0, at 0 0"),
    ]
}

/// Thirty-two tasks, all released at once.
fn all_tasks() -> Vec<Case> {
    let tasks = |deadline: u16, gap: u16| one(4).with(|s| s.tasks = vec![task(1, 1, deadline, gap); 32]);
    let listed = |jobs: &[(usize, &str)]| -> String {
        jobs.iter().map(|(i, job)| format!(" job {i} {job}")).collect()
    };
    let served: Vec<(usize, &str)> = (0..32).map(|i| (i, if i < 2 { "2 0 0" } else { "2 1 30" })).collect();
    let dropped: Vec<(usize, &str)> = (0..32).map(|i| (i, "1 0 0")).collect();
    vec![
        fresh(
            "thirty-two",
            &tasks(32, 32),
            &[tick(0, u32::MAX), tick(0, 0)],
            &format!("1 0 0, 1 1 0, at 0 2{}", listed(&served)),
        ),
        // Task 0 is served, and all others are late.
        fresh(
            "thirty-one-late",
            &tasks(1, 1),
            &[tick(0, u32::MAX)],
            &format!("1 0 4294967294, at 0 1{}", listed(&dropped)),
        ),
    ]
}

/// STATE: the location and the ticks done there. STATE comes before EARLY.
fn places() -> Vec<Case> {
    let broken = |name: &str, location: u32, done: u32| {
        let words = format!("refused 14 0, refused 14 0, at {location} {done} job 0 4 0 0");
        let state = state(location, done, &[(4, 0, 0)]);
        given(&format!("state-{name}"), &a(), state, &[tick(0, 0), tick(0, u32::MAX)], &words)
    };
    vec![
        broken("location-3", 3, 0),
        broken("location-255", 255, 0),
        broken("done-1-of-1", 0, 1),
        broken("done-3-of-3", 2, 3),
        broken("done-65535", 1, 65_535),
    ]
}

/// STATE: since, remaining and left of a task in the table. D is 4 unless the name says more.
fn jobs() -> Vec<Case> {
    let broken = |name: &str, sample: &Sample, (since, remaining, left): (u32, u32, u32)| {
        let words = format!("refused 14 0, at 2 1 job 0 {since} {remaining} {left}");
        let state = state(2, 1, &[(since, remaining, left)]);
        given(&format!("state-{name}"), sample, state, &[tick(0, 0)], &words)
    };
    let (a, long, longest) = (a(), a_with(1, 4, 65_535), a_with(1, 65_535, 65_535));
    vec![
        broken("since-5-of-4", &a, (5, 0, 0)),
        broken("since-65535-of-4", &a, (65_535, 0, 0)),
        broken("remaining-2-of-1", &a, (2, 2, 2)),
        broken("remaining-65535-of-1", &a, (2, 65_535, 2)),
        broken("work-with-left-0", &a, (4, 1, 0)),
        broken("left-without-work", &a, (2, 0, 2)),
        broken("since-and-left-3", &a, (1, 1, 2)),
        broken("since-and-left-5", &a, (2, 1, 3)),
        broken("since-and-left-65540", &long, (65_000, 1, 540)),
        broken("since-and-left-65540-at-the-gap", &long, (65_535, 1, 5)),
        broken("since-and-left-65536", &longest, (65_535, 1, 1)),
    ]
}

/// STATE: an entry past the tasks that is not 0.
fn past_the_tasks() -> Vec<Case> {
    let broken = |task: usize, (since, remaining, left): (u32, u32, u32)| {
        let mut state = state(0, 0, &[(4, 0, 0)]);
        state.jobs[task] = Job { since, remaining, left };
        let words = format!("refused 14 0, at 0 0 job 0 4 0 0 job {task} {since} {remaining} {left}");
        let name = format!("state-past-the-tasks-{task}-{since}-{remaining}-{left}");
        given(&name, &a(), state, &[tick(0, 0)], &words)
    };
    vec![
        broken(1, (1, 0, 0)),
        broken(1, (0, 1, 0)),
        broken(1, (0, 0, 1)),
        broken(31, (4, 0, 0)),
        broken(31, (0, 0, 1)),
    ]
}

/// Lawful states that no run need reach.
fn lawful() -> Vec<Case> {
    let a = a();
    let longest = a_with(1, 65_535, 65_535);
    vec![
        // Of zeros: not fresh, as a release is early.
        given(
            "zeros",
            &a,
            state(0, 0, &[]),
            &[tick(100, 1), tick(100, 0)],
            "refused 15 0, 1 - 0, at 2 0 job 0 1 0 0",
        ),
        given("zeros-without-tasks", &b(), state(0, 0, &[]), &[tick(9, 0)], "0 - 0, at 1 0"),
        given("last-tick", &a, state(2, 2, &[(4, 0, 0)]), &[tick(0, 0)], "2 - 0, at 0 0 job 0 4 0 0"),
        given("with-work", &a, state(1, 1, &[(2, 1, 2)]), &[tick(0, 0)], "1 0 0, at 1 2 job 0 3 0 0"),
        // Late in spite of MEETS.
        given("late-though-meets", &a, state(2, 0, &[(3, 1, 1)]), &[tick(0, 0)], "2 - 1, at 2 1 job 0 4 0 0"),
        given(
            "since-and-left-65535",
            &longest,
            state(2, 0, &[(65_534, 1, 1)]),
            &[tick(0, 0)],
            "2 - 1, at 2 1 job 0 65535 0 0",
        ),
        given(
            "left-65535",
            &longest,
            state(2, 0, &[(0, 1, 65_535)]),
            &[tick(0, 0)],
            "2 - 0, at 2 1 job 0 1 1 65534",
        ),
    ]
}

/// Every question judges the table first, here A with another number of locations: before a queue, an amount, room, the
/// state and a release.
fn judged() -> Vec<Case> {
    let asked = |count: u16, refusal: &str| {
        let words = format!("{}, at 255 0", [refusal; 9].join(" "));
        let question = Question::Every(count, state(255, 0, &[]), vec![tick(0, u32::MAX)]);
        told(&format!("every-question-of-{count}-locations"), a().bytes(), question, &words)
    };
    vec![asked(0, "refused 3 0"), asked(1, "refused 8 1"), asked(129, "refused 3 0")]
}
