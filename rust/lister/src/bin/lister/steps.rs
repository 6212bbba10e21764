//! Steps of the runner from the fresh state: a line in for each step, a line out for each step.

use std::io::{self, BufRead, Write};

use lister::{State, Step, Table};

use crate::questions::no_number;
use crate::{Failure, misused};

pub fn run(table: &Table) -> Result<(), Failure> {
    let mut state = State::fresh(table)?;
    for line in io::stdin().lock().lines() {
        let (values, released) = inputs_of(&line?)?;
        let text = match state.step(table, values, released) {
            Ok(step) => {
                state = step.state;
                words_of(&step)
            }
            Err(refusal) => refusal.to_string(),
        };
        writeln!(io::stdout(), "{text}")?;
    }
    Ok(())
}

/// Eight values and the set of released tasks.
fn inputs_of(line: &str) -> Result<([u16; 8], u32), Failure> {
    let words: Vec<&str> = line.split_whitespace().collect();
    let [values @ .., released] = &words[..] else {
        return Err(misused("an empty line instead of a step"));
    };
    let value = |word: &&str| word.parse().map_err(|_| no_number(word));
    let values: Vec<u16> = values.iter().map(value).collect::<Result<_, _>>()?;
    let values = <[u16; 8]>::try_from(values).map_err(|_| misused("a step has eight values and a set"))?;
    let released = released.parse().map_err(|_| no_number(released))?;
    Ok((values, released))
}

fn words_of(step: &Step) -> String {
    let task = step.task.map_or("-".into(), |task| task.to_string());
    format!("{} {task} {}", step.queue, step.late)
}
