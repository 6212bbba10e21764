//! What was asked, how often each refusal and each verdict was seen, and the first difference.

use std::collections::BTreeMap;
use std::fmt::{self, Debug};

use domvurtesz::Kind;
use domvurtesz::answers::{
    CycleAnswer, FieldAnswer, FreshAnswer, StepAnswer, TicksAnswer, Told, VerdictAnswer, WriteAnswer,
};

/// What is not as it should be, in lines.
pub struct Difference(String);

impl Difference {
    pub fn new(text: String) -> Difference {
        Difference(text)
    }

    /// Tells also of what the question was about.
    pub fn about(self, what: &str) -> Difference {
        Difference(format!("{}\n{what}", self.0))
    }
}

impl fmt::Display for Difference {
    fn fmt(&self, out: &mut fmt::Formatter) -> fmt::Result {
        write!(out, "{}", self.0)
    }
}

/// A whole answer of the library.
pub trait Answer: PartialEq + Debug {
    fn refusal(&self) -> Told;
}

macro_rules! answers {
    ($($answer:ty),*) => {
        $(impl Answer for $answer {
            fn refusal(&self) -> Told {
                self.refusal
            }
        })*
    };
}

answers!(WriteAnswer, FieldAnswer, TicksAnswer, CycleAnswer, VerdictAnswer, FreshAnswer, StepAnswer);

impl Answer for Told {
    fn refusal(&self) -> Told {
        *self
    }
}

/// An answer with what else it leaves behind, such as a lent buffer.
impl<A: Answer, B: PartialEq + Debug> Answer for (A, B) {
    fn refusal(&self) -> Told {
        self.0.refusal()
    }
}

#[derive(Default)]
struct Counts {
    accepted: u64,
    refused: u64,
}

#[derive(Default)]
pub struct Tally {
    questions: BTreeMap<&'static str, Counts>,
    refusals: BTreeMap<u8, u64>,
    /// Other things worth counting, such as late jobs.
    seen: BTreeMap<&'static str, u64>,
}

impl Tally {
    /// Counts a question and compares its answers, the library's first.
    pub fn same<A: Answer>(
        &mut self,
        question: &'static str,
        numbers: fmt::Arguments,
        library: A,
        lister: A,
    ) -> Result<(), Difference> {
        if library != lister {
            let text = format!("{question} {numbers}\nlibrary {library:?}\nlister  {lister:?}");
            return Err(Difference::new(text));
        }
        let counts = self.questions.entry(question).or_default();
        match library.refusal().number {
            0 => counts.accepted += 1,
            number => {
                counts.refused += 1;
                *self.refusals.entry(number).or_default() += 1;
            }
        }
        Ok(())
    }

    pub fn see(&mut self, what: &'static str, times: u64) {
        *self.seen.entry(what).or_default() += times;
    }

    /// Adds what another part has counted.
    pub fn add(&mut self, other: Tally) {
        for (question, Counts { accepted, refused }) in other.questions {
            let counts = self.questions.entry(question).or_default();
            counts.accepted += accepted;
            counts.refused += refused;
        }
        for (number, times) in other.refusals {
            *self.refusals.entry(number).or_default() += times;
        }
        for (what, times) in other.seen {
            self.see(what, times);
        }
    }

    /// The kinds of refusal that were never seen.
    pub fn unseen(&self) -> Vec<&'static str> {
        let unseen = Kind::ALL.into_iter().filter(|kind| !self.refusals.contains_key(&kind.number()));
        unseen.map(Kind::name).collect()
    }
}

impl fmt::Display for Tally {
    fn fmt(&self, out: &mut fmt::Formatter) -> fmt::Result {
        writeln!(out, "{:24} {:>9} {:>9}", "question", "accepted", "refused")?;
        for (question, Counts { accepted, refused }) in &self.questions {
            writeln!(out, "{question:24} {accepted:9} {refused:9}")?;
        }
        writeln!(out)?;
        for (number, times) in &self.refusals {
            let name = Kind::of_number(*number).map_or("", Kind::name);
            writeln!(out, "refused {number:2} {name:13} {times:9}")?;
        }
        writeln!(out)?;
        for (what, times) in &self.seen {
            writeln!(out, "{what:24} {times:9}")?;
        }
        Ok(())
    }
}
