//! Cases of least, most, cycle and filling. Beside each stands what docs/RULES.md gives, worked out by hand.

use lister::refusal::{AMOUNT, QUEUE};

use crate::case::{Case, no_queue, refused, told};
use crate::question::Question;
use crate::sample::{Sample, a, b, figure4, longest, one};

pub fn all() -> Vec<Case> {
    let groups = [leasts(), mosts(), long_windows(), cycles(), fillings(), rooms(), queues(), other_queues()];
    groups.into_iter().flatten().collect()
}

fn least(name: &str, sample: &Sample, queue: u32, window: u32, ticks: u32) -> Case {
    let question = Question::Least(queue, window);
    told(&format!("{name}-least-{queue}-{window}"), sample.bytes(), question, &ticks.to_string())
}

fn most(name: &str, sample: &Sample, queue: u32, window: u32, ticks: u32) -> Case {
    let question = Question::Most(queue, window);
    told(&format!("{name}-most-{queue}-{window}"), sample.bytes(), question, &ticks.to_string())
}

fn cycle(name: &str, sample: &Sample, queue: u32, words: &str) -> Case {
    told(&format!("{name}-cycle-{queue}"), sample.bytes(), Question::Cycle(queue), words)
}

/// The lent entries hold 7 before.
fn fill(name: &str, sample: &Sample, queue: u32, room: u32, words: &str) -> Case {
    told(&format!("{name}-fill-{queue}-in-{room}"), sample.bytes(), Question::Fill(queue, room), words)
}

fn leasts() -> Vec<Case> {
    let (a, b, figure4) = (a(), b(), figure4());
    vec![
        least("a", &a, 1, 0, 0),
        least("a", &a, 1, 3, 0),
        least("a", &a, 1, 4, 1),
        least("a", &a, 1, 7, 1),
        least("a", &a, 1, 8, 2),
        least("b", &b, 1, 0, 0),
        least("b", &b, 1, 5, 0),
        least("b", &b, 1, 6, 1),
        least("b", &b, 1, 7, 2),
        least("b", &b, 1, 11, 3),
        least("figure4", &figure4, 1, 13, 0),
        least("figure4", &figure4, 1, 14, 1),
        least("figure4", &figure4, 1, 15, 2),
        least("figure4", &figure4, 1, 25, 2),
        least("figure4", &figure4, 1, 26, 3),
        least("longest", &longest(), 1, 128, 128),
    ]
}

/// B's `1 1 - 1 1` has four in five ticks; the next one is nine ticks from the first.
fn mosts() -> Vec<Case> {
    let (a, b) = (a(), b());
    vec![
        most("a", &a, 2, 0, 0),
        most("a", &a, 2, 4, 3),
        most("a", &a, 2, 5, 4),
        most("a", &a, 2, 7, 6),
        most("a", &a, 2, 8, 6),
        most("a", &a, 1, 8, 8),
        most("b", &b, 1, 5, 4),
        most("b", &b, 1, 8, 4),
        most("b", &b, 1, 9, 5),
        most("b", &b, 1, 10, 6),
    ]
}

/// 2,000,000 ticks are 500,000 cycles of A and 400,000 of B, whose first or last differs by two ticks.
fn long_windows() -> Vec<Case> {
    let (a, b) = (a(), b());
    let long = 2_000_000;
    let beyond = |name: &str, question: Question| refused(name, a.bytes(), question, AMOUNT);
    vec![
        least("a", &a, 1, 1_999_999, 499_999),
        least("a", &a, 1, long, 500_000),
        least("a", &a, 2, long, 0),
        least("b", &b, 1, long, 799_998),
        most("a", &a, 1, long, long),
        most("a", &a, 2, long, 1_500_000),
        most("b", &b, 1, long, 800_002),
        least("period-1024", &one(1_024), 1, long, long),
        beyond("least-of-2000001", Question::Least(1, long + 1)),
        beyond("least-of-4294967295", Question::Least(1, u32::MAX)),
        beyond("most-of-2000001", Question::Most(2, long + 1)),
        beyond("most-of-4294967295", Question::Most(2, u32::MAX)),
    ]
}

fn cycles() -> Vec<Case> {
    let (a, figure4) = (a(), figure4());
    vec![
        cycle("a", &a, 1, "1 4"),
        cycle("a", &a, 2, "0 3"),
        cycle("b", &b(), 1, "2 2"),
        cycle("figure4", &figure4, 1, "2 5"),
        cycle("figure4", &figure4, 2, "4 4"),
        cycle("figure4", &figure4, 3, "3 6"),
        cycle("figure4", &figure4, 4, "0 3"),
        cycle("period-1024", &one(1_024), 1, "1024 1024"),
    ]
}

fn fillings() -> Vec<Case> {
    let (a, figure4) = (a(), figure4());
    vec![
        fill("a", &a, 1, 8, "0 0 0 0 1 1 1 1"),
        fill("a", &a, 2, 8, "0 0 0 0 0 0 0 0"),
        fill("b", &b(), 1, 10, "0 0 0 0 0 0 1 2 2 2"),
        fill("figure4", &figure4, 1, 24, "0 0 0 0 0 0 0 0 0 0 0 0 0 0 1 2 2 2 2 2 2 2 2 2"),
        fill("figure4", &figure4, 2, 24, "0 0 0 0 0 0 0 0 0 1 2 3 4 4 4 4 4 4 4 4 4 5 6 7"),
        fill("figure4", &figure4, 4, 24, "0 0 0 0 0 0 0 0 0 0 0 0 0 0 0 0 0 0 0 0 0 0 0 0"),
        fill("period-1", &one(1), 1, 2, "0 1"),
    ]
}

/// ROOM with 2P - 1 entries and not with 2P. A refusal writes nothing, and later entries stay.
fn rooms() -> Vec<Case> {
    let a = a();
    let late = |room: u32, words: &str| {
        let name = format!("period-1024-fill-1-in-{room}");
        told(&name, one(1_024).bytes(), Question::FillLate(1, room), words)
    };
    vec![
        fill("a", &a, 1, 0, "refused 16 0"),
        fill("a", &a, 1, 7, "refused 16 0 7 7 7 7 7 7 7"),
        fill("a", &a, 1, 9, "0 0 0 0 1 1 1 1 7"),
        fill("a", &a, 1, 11, "0 0 0 0 1 1 1 1 7 7 7"),
        fill("b", &b(), 1, 9, "refused 16 0 7 7 7 7 7 7 7 7 7"),
        fill("b", &b(), 1, 11, "0 0 0 0 0 0 1 2 2 2 7"),
        fill("period-1", &one(1), 1, 1, "refused 16 0 7"),
        fill("a", &a, 3, 7, "refused 10 0 7 7 7 7 7 7 7"),
        fill("a", &a, 3, 8, "refused 10 0 7 7 7 7 7 7 7 7"),
        late(2_047, "refused 16 0 7"),
        late(2_048, "2046 2047"),
        late(2_049, "2046 2047 7"),
    ]
}

/// Of A's queues, 0 and all above 2 are refused, before any amount; 257 is 1 in eight bits.
fn queues() -> Vec<Case> {
    let asked = |queue: u32| {
        [
            Question::Least(queue, 4),
            Question::Least(queue, 2_000_001),
            Question::Most(queue, 4),
            Question::Most(queue, 2_000_001),
            Question::Cycle(queue),
            Question::Fill(queue, 0),
        ]
    };
    [0, 3, 257, u32::MAX].into_iter().flat_map(asked).map(no_queue).collect()
}

/// A queue that no location names.
fn other_queues() -> Vec<Case> {
    let sixteen = one(4).with(|s| s.queues = 16);
    vec![
        least("unnamed", &sixteen, 16, 100, 0),
        most("unnamed", &sixteen, 16, 100, 0),
        cycle("unnamed", &sixteen, 16, "0 0"),
        fill("unnamed", &sixteen, 16, 8, "0 0 0 0 0 0 0 0"),
        refused("unnamed-17", sixteen.bytes(), Question::Least(17, 1), QUEUE),
    ]
}
