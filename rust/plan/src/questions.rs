//! The questions, each with its numbers, its help and its answer as text.

use domvurtesz::{Refusal, Table};

use crate::command::Failure;
use crate::{listing, shown};

pub struct Question {
    name: &'static str,
    /// The names of the numbers after FILE.
    pub numbers: &'static [&'static str],
    /// One line of help, and what more there is to say.
    tells: &'static str,
    more: &'static str,
    /// Asked with as many numbers as there are names.
    pub answer: fn(&Table, &[u32]) -> Result<String, Refusal>,
}

const ALL: [Question; 10] = [
    Question {
        name: "list",
        numbers: &[],
        tells: "the listing: a line for the tree, then a line for each queue",
        more: "`tree`, locations, queues, P, tasks; then for each queue `queue`, its number,\n\
               cycle least, cycle most, and `meets`, `short WINDOW DEMAND SUPPLY` or `horizon`.\n\
               A refused record prints `refused NUMBER PLACE`, and the reason on standard error.",
        answer: |table, _| listing::listing(table),
    },
    Question {
        name: "judge",
        numbers: &[],
        tells: "`accepted` for the record of a well-formed table",
        more: "Any other record is refused: standard error says what to look at.",
        answer: |_, _| Ok("accepted\n".into()),
    },
    Question {
        name: "show",
        numbers: &[],
        tells: "the table as a tree, and its tasks",
        more: "Each branch stands below the values that lead to it. C is the work of a message,\n\
               D its deadline, T the least gap between two releases, all in ticks.",
        answer: |table, _| Ok(shown::shown(table)),
    },
    Question {
        name: "least",
        numbers: &["QUEUE", "WINDOW"],
        tells: "the fewest ticks of the queue in any window of so many ticks",
        more: "A window has at most 2,000,000 ticks; it may start anywhere in a cycle.",
        answer: |table, n| table.least(n[0], n[1]).map(line),
    },
    Question {
        name: "most",
        numbers: &["QUEUE", "WINDOW"],
        tells: "the most ticks of the queue in any window of so many ticks",
        more: "A window has at most 2,000,000 ticks; it may start anywhere in a cycle.",
        answer: |table, n| table.most(n[0], n[1]).map(line),
    },
    Question {
        name: "cycle",
        numbers: &["QUEUE"],
        tells: "the fewest and the most ticks of the queue in a whole cycle",
        more: "Two numbers: cycle least and cycle most.",
        answer: |table, n| table.cycle(n[0]).map(|cycle| format!("{} {}\n", cycle.least, cycle.most)),
    },
    Question {
        name: "fill",
        numbers: &["QUEUE"],
        tells: "least for every window from 0 to 2P - 1",
        more: "A line for each window: the window and its least.\n\
               From P on, P ticks more are a cycle least more.",
        answer: |table, n| filled(table, n[0]),
    },
    Question {
        name: "demand",
        numbers: &["QUEUE", "WINDOW"],
        tells: "the most work of the queue that is released and due in a window",
        more: "A window has at most 2,000,000 ticks.",
        answer: |table, n| table.demand(n[0], n[1]).map(line),
    },
    Question {
        name: "verdict",
        numbers: &["QUEUE"],
        tells: "`meets`, or `short` with the smallest window that fails",
        more: "`meets`: no message of the queue is ever late. `short WINDOW DEMAND SUPPLY`: in a window\n\
               of so many ticks so much work can be due, and only so many ticks are sure.",
        answer: |table, n| table.verdict(n[0]).map(line),
    },
    Question {
        name: "wait",
        numbers: &["QUEUE", "TICKS"],
        tells: "the longest wait for so many ticks of the queue",
        more: "The longest time until one message of so many ticks, alone in its queue, is sent.\n\
               It has 1 to 65,535 ticks.",
        answer: |table, n| table.wait(n[0], n[1]).map(line),
    },
];

const ABOUT: &str = "
FILE holds one record; `-` is standard input. Numbers are decimal. A number above the limits
of its question is refused (QUEUE or AMOUNT), however large it is.
A refusal is told on standard error: its number and place, its name, and what to look at.
`plan help QUESTION` tells more about one question, docs/RULES.md all about the answers.
Exit status: 0 answered, 1 refused, 2 not understood or not readable.
";

pub fn named(name: &str) -> Option<&'static Question> {
    ALL.iter().find(|question| question.name == name)
}

pub fn help() -> String {
    let line = |question: &Question| format!("{:31} {}\n", question.usage(), question.tells);
    ALL.iter().map(line).collect::<String>() + ABOUT
}

impl Question {
    pub fn usage(&self) -> String {
        let words = ["plan", self.name, "FILE"].into_iter().chain(self.numbers.iter().copied());
        words.collect::<Vec<_>>().join(" ")
    }

    pub fn help(&self) -> String {
        format!("{}\n{}\n\n{}\n", self.usage(), self.tells, self.more)
    }

    pub fn failure(&self, refusal: Refusal) -> Failure {
        if self.name == "list" { Failure::Unlisted(refusal) } else { Failure::Refused(refusal) }
    }
}

fn line(answer: impl ToString) -> String {
    answer.to_string() + "\n"
}

fn filled(table: &Table, queue: u32) -> Result<String, Refusal> {
    let mut filling = vec![0; 2 * usize::from(table.period)];
    table.fill(queue, &mut filling)?;
    let lines = filling.iter().enumerate();
    Ok(lines.map(|(window, least)| format!("{window} {least}\n")).collect())
}
