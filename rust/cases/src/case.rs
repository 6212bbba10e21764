//! One case: a record, a question about it, the outcome worked out by hand, and the lister's answer as a line.

use lister::Refusal;
use lister::refusal::QUEUE;

use crate::question::Question;
use crate::sample::a;

/// The outcome that was worked out by hand.
pub enum Outcome {
    Accepted,
    Words(String),
    Refused(u32, usize),
}

pub struct Case {
    pub name: String,
    pub question: Question,
    pub record: Vec<u8>,
    pub outcome: Outcome,
}

/// A case whose answer is known word for word.
pub fn told(name: &str, record: Vec<u8>, question: Question, words: &str) -> Case {
    Case { name: name.into(), question, record, outcome: Outcome::Words(words.into()) }
}

/// A case that is refused, at place 0.
pub fn refused(name: &str, record: Vec<u8>, question: Question, number: u32) -> Case {
    Case { name: name.into(), question, record, outcome: Outcome::Refused(number, 0) }
}

/// A question about a queue that A does not have, named by its kind and its numbers.
pub fn no_queue(question: Question) -> Case {
    let (kind, queue, amount) = question.numbers();
    refused(&format!("no-queue-{}-{queue}-{amount}", char::from(kind)), a().bytes(), question, QUEUE)
}

impl Case {
    /// The case as bytes, for the program under test.
    pub fn entry(&self) -> Vec<u8> {
        let (kind, first, second) = self.question.numbers();
        let steps = self.question.steps();
        let mut bytes = vec![u8::try_from(self.name.len()).expect("a short name"), kind];
        bytes.extend(first.to_be_bytes());
        bytes.extend(second.to_be_bytes());
        bytes.extend(u16::try_from(steps.len()).expect("few steps").to_be_bytes());
        bytes.extend(u16::try_from(self.record.len()).expect("a short record").to_be_bytes());
        bytes.extend(self.name.as_bytes());
        bytes.extend(steps);
        bytes.extend(&self.record);
        bytes
    }

    /// The line that the program has to print, once the lister agrees with the hand.
    pub fn line(&self) -> Result<String, String> {
        let words = self.question.answer(&self.record).unwrap_or_else(|refusal| refusal.to_string());
        let agrees = match &self.outcome {
            Outcome::Accepted => words.starts_with("accepted"),
            Outcome::Words(hand) => words == *hand,
            &Outcome::Refused(number, place) => words == Refusal { number, place }.to_string(),
        };
        let line = format!("{} {words}\n", self.name);
        if agrees { Ok(line) } else { Err(format!("not as worked out by hand: {line}")) }
    }
}
