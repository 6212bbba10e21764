//! Cases of demand, verdict and wait. Beside each stands what docs/RULES.md gives, worked out by hand.

use lister::refusal::{AMOUNT, HORIZON, NEVER};

use crate::case::{Case, no_queue, refused, told};
use crate::question::Question;
use crate::sample::{Sample, Task, a, b, figure4, one, slowest, task};

pub fn all() -> Vec<Case> {
    let groups =
        [demands(), amounts(), queues(), verdicts(), beyond_the_gaps(), many_tasks(), multiples(), waits()];
    groups.into_iter().flatten().collect()
}

fn demand(name: &str, sample: &Sample, queue: u32, window: u32, ticks: u32) -> Case {
    let question = Question::Demand(queue, window);
    told(&format!("{name}-demand-{queue}-{window}"), sample.bytes(), question, &ticks.to_string())
}

fn verdict(name: &str, sample: Sample, queue: u32, words: &str) -> Case {
    told(&format!("verdict-{name}"), sample.bytes(), Question::Verdict(queue), words)
}

fn horizon(name: &str, sample: Sample) -> Case {
    refused(&format!("horizon-{name}"), sample.bytes(), Question::Verdict(1), HORIZON)
}

fn wait(name: &str, sample: &Sample, queue: u32, ticks: u32, window: u32) -> Case {
    let question = Question::Wait(queue, ticks);
    told(&format!("{name}-wait-{queue}-{ticks}"), sample.bytes(), question, &window.to_string())
}

/// The sample with these tasks in place of its own.
fn with(sample: Sample, tasks: &[Task]) -> Sample {
    sample.with(|s| s.tasks = tasks.into())
}

/// A's task has D 4 and T 4.
fn demands() -> Vec<Case> {
    let a = a();
    let late = with(one(4), &[task(1, 2, 5, 7)]);
    let two = with(one(4), &[task(1, 2, 5, 7), task(1, 3, 6, 6)]);
    let large = with(one(4), &[task(1, 65_535, 65_535, 65_535)]);
    let thirty_two = with(one(1), &[task(1, 1, 1, 1); 32]);
    vec![
        demand("a", &a, 1, 0, 0),
        demand("a", &a, 1, 3, 0),
        demand("a", &a, 1, 4, 1),
        demand("a", &a, 1, 7, 1),
        demand("a", &a, 1, 8, 2),
        demand("a", &a, 1, 2_000_000, 500_000),
        demand("a", &a, 2, 2_000_000, 0),
        demand("late", &late, 1, 4, 0),
        demand("late", &late, 1, 5, 2),
        demand("late", &late, 1, 11, 2),
        demand("late", &late, 1, 12, 4),
        demand("two", &two, 1, 12, 10),
        demand("large", &large, 1, 65_534, 0),
        demand("large", &large, 1, 65_535, 65_535),
        demand("large", &large, 1, 2_000_000, 1_966_050),
        demand("thirty-two", &thirty_two, 1, 2_000_000, 64_000_000),
    ]
}

/// An amount is tested before NEVER.
fn amounts() -> Vec<Case> {
    let refuse = |name: &str, question: Question, number: u32| refused(name, a().bytes(), question, number);
    vec![
        refuse("demand-of-2000001", Question::Demand(1, 2_000_001), AMOUNT),
        refuse("demand-of-4294967295", Question::Demand(1, u32::MAX), AMOUNT),
        refuse("wait-for-0", Question::Wait(1, 0), AMOUNT),
        refuse("wait-for-65536", Question::Wait(1, 65_536), AMOUNT),
        refuse("wait-for-4294967295", Question::Wait(1, u32::MAX), AMOUNT),
        refuse("wait-of-2-for-0", Question::Wait(2, 0), AMOUNT),
        refuse("wait-of-2-for-65536", Question::Wait(2, 65_536), AMOUNT),
        refuse("wait-of-2-for-1", Question::Wait(2, 1), NEVER),
        refuse("wait-of-2-for-65535", Question::Wait(2, 65_535), NEVER),
    ]
}

/// Of A's queues, 0 and all above 2 are refused, before any amount; 257 is 1 in eight bits.
fn queues() -> Vec<Case> {
    let asked = |queue: u32| {
        [
            Question::Demand(queue, 4),
            Question::Demand(queue, 2_000_001),
            Question::Verdict(queue),
            Question::Wait(queue, 1),
            Question::Wait(queue, 0),
        ]
    };
    [0, 3, 257, u32::MAX].into_iter().flat_map(asked).map(no_queue).collect()
}

/// B's least(1,5) is 0, least(1,6) is 1 and least(1,7) is 2.
fn verdicts() -> Vec<Case> {
    vec![
        verdict("a", a(), 1, "meets"),
        verdict("a-without-tasks", a(), 2, "meets"),
        verdict("a-deadline-3", with(a(), &[task(1, 1, 3, 4)]), 1, "short 3 1 0"),
        verdict("a-queue-2", with(a(), &[task(2, 1, 4, 4)]), 2, "short 4 1 0"),
        verdict("a-other-queue", with(a(), &[task(2, 1, 4, 4)]), 1, "meets"),
        verdict("b-period-is-no-window", with(b(), &[task(1, 1, 5, 5)]), 1, "short 5 1 0"),
        verdict("b-deadline-6", with(b(), &[task(1, 2, 6, 10)]), 1, "short 6 2 1"),
        verdict("b-deadline-7", with(b(), &[task(1, 2, 7, 10)]), 1, "meets"),
        verdict("figure4", figure4(), 1, "meets"),
        verdict("slowest-deadline-2045", with(slowest(), &[task(1, 1, 2_045, 2_048)]), 1, "short 2045 1 0"),
        verdict("slowest-deadline-2046", with(slowest(), &[task(1, 1, 2_046, 2_048)]), 1, "meets"),
    ]
}

/// Short beyond the largest T. Where every tick is the queue's, least(1,t) is t.
fn beyond_the_gaps() -> Vec<Case> {
    vec![
        // 7/6 ticks are asked for each tick: 1 at 2, 3 at 3, 4 at 4, and 3 + 4 at the multiple 6.
        verdict("at-the-multiple", with(one(1), &[task(1, 1, 2, 2), task(1, 2, 3, 3)]), 1, "short 6 7 6"),
        // 16/63 where 1/4 is granted: no window below 63 asks for more than its quarter.
        verdict("overloaded", with(a(), &[task(1, 1, 7, 7), task(1, 1, 9, 9)]), 1, "short 63 16 15"),
        // Each asks for half of all ticks: 2 at 3, 5 at 5, 7 at 7, and three times 2 and twice 3 at 11.
        verdict("not-overloaded", with(one(4), &[task(1, 2, 3, 4), task(1, 3, 5, 6)]), 1, "short 11 12 11"),
        // At 23 four times 3 and three times 4 are due; T 6 and 8.
        verdict(
            "late-in-the-multiple",
            with(one(1), &[task(1, 3, 5, 6), task(1, 4, 7, 8)]),
            1,
            "short 23 24 23",
        ),
        // The same with D = T: everything is used, nothing is late.
        verdict("fully-used", with(one(1), &[task(1, 3, 6, 6), task(1, 4, 8, 8)]), 1, "meets"),
    ]
}

fn many_tasks() -> Vec<Case> {
    let all = |deadline: u16| with(one(4), &[task(1, 1, deadline, 32); 32]);
    let mut last = [task(2, 1, 4, 4); 32];
    last[31] = task(1, 1, 3, 4);
    vec![
        verdict("thirty-two-in-32", all(32), 1, "meets"),
        verdict("thirty-two-in-31", all(31), 1, "short 31 32 31"),
        verdict("last-of-thirty-two", with(a(), &last), 1, "short 3 1 0"),
        verdict("first-thirty-one", with(a(), &last), 2, "short 4 31 0"),
    ]
}

/// 64 x 15,625 is 1,000,000, and 101 x 9,901 is 1,000,001.
fn multiples() -> Vec<Case> {
    let gaps = |sample: Sample, gaps: &[u16]| {
        let tasks: Vec<Task> = gaps.iter().map(|&gap| task(1, 1, 4, gap)).collect();
        with(sample, &tasks)
    };
    let other_queue = with(a(), &[task(1, 1, 4, 65_535), task(2, 1, 4, 65_533)]);
    let odd: Vec<u16> = (0..32).map(|i| 65_535 - 2 * i).collect();
    vec![
        verdict("gap-65535", gaps(a(), &[65_535]), 1, "meets"),
        verdict("gaps-of-two-queues", other_queue.clone(), 1, "meets"),
        verdict("gaps-of-the-other-queue", other_queue, 2, "short 4 1 0"),
        verdict("multiple-1000000-with-the-period", gaps(one(64), &[15_625]), 1, "meets"),
        verdict("multiple-1000000-of-gaps", gaps(one(1), &[64, 15_625]), 1, "meets"),
        verdict("multiple-1000000-again", gaps(one(64), &[15_625, 50_000, 8]), 1, "meets"),
        horizon("gaps-65535-65533", gaps(a(), &[65_535, 65_533])),
        horizon("multiple-1000001-with-the-period", gaps(one(101), &[9_901])),
        horizon("multiple-1000001-of-gaps", gaps(one(1), &[101, 9_901])),
        horizon("though-short", with(a(), &[task(1, 1, 3, 65_535), task(1, 1, 4, 65_533)])),
        horizon("thirty-two-gaps", gaps(a(), &odd)),
    ]
}

fn waits() -> Vec<Case> {
    let (a, b, figure4) = (a(), b(), figure4());
    vec![
        wait("a", &a, 1, 1, 4),
        wait("a", &a, 1, 2, 8),
        wait("a", &a, 1, 65_535, 262_140),
        wait("b", &b, 1, 1, 6),
        wait("b", &b, 1, 2, 7),
        wait("b", &b, 1, 3, 11),
        wait("figure4", &figure4, 1, 1, 14),
        wait("figure4", &figure4, 1, 2, 15),
        wait("figure4", &figure4, 1, 3, 26),
        wait("period-1", &one(1), 1, 65_535, 65_535),
        wait("slowest", &slowest(), 1, 1, 2_046),
        wait("slowest", &slowest(), 1, 65_535, 67_108_862),
    ]
}
