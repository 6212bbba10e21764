//! The command line of the lister: the listing of a record, single questions on it, steps of its runner.

mod questions;
mod steps;

use std::io::{self, Read, Write};
use std::process::ExitCode;

use lister::{Refusal, listing, read};

const HELP: &str = "\
lister list [FILE]                the listing of a record
lister judge FILE                 `accepted`
lister show FILE                  the table, one line for each field
lister field FILE K               offset and length of the payload of field K
lister least FILE QUEUE WINDOW    least ticks of the queue in a window of so many ticks
lister most FILE QUEUE WINDOW     most ticks of the queue in a window of so many ticks
lister cycle FILE QUEUE           cycle least and cycle most of the queue
lister fill FILE QUEUE [ENTRIES]  least for the windows 0 to 2P-1, in a slice of so many entries or of 2P
lister demand FILE QUEUE WINDOW   demand of the queue in a window of so many ticks
lister verdict FILE QUEUE         `meets`, or `short` with window, demand and supply
lister wait FILE QUEUE TICKS      the longest wait for so many ticks of the queue
lister steps FILE                 steps from the fresh state, one for each line of standard input:
                                  eight values and the set of released tasks in, queue, task and late set out

FILE holds a record; `-` is standard input, but not for steps. Numbers are decimal.
What is refused prints `refused number place`; a refused step changes nothing, and the next one follows.
Exit status: 0 answered (steps: also where a step is refused), 1 refused, 2 not understood.
";

/// Why there is no answer.
enum Failure {
    Refused(Refusal),
    Misused(String),
}

impl From<Refusal> for Failure {
    fn from(refusal: Refusal) -> Failure {
        Failure::Refused(refusal)
    }
}

impl From<io::Error> for Failure {
    fn from(error: io::Error) -> Failure {
        Failure::Misused(error.to_string())
    }
}

fn main() -> ExitCode {
    let arguments = std::env::args_os().skip(1);
    let arguments: Vec<String> = arguments.map(|word| word.to_string_lossy().into_owned()).collect();
    let words: Vec<&str> = arguments.iter().map(String::as_str).collect();
    match answer(&words) {
        Ok(()) => ExitCode::SUCCESS,
        Err(Failure::Refused(refusal)) => {
            println!("{refusal}");
            ExitCode::from(1)
        }
        Err(Failure::Misused(message)) => {
            eprintln!("lister: {message} (lister --help tells more)");
            ExitCode::from(2)
        }
    }
}

/// Prints what one command answers.
fn answer(words: &[&str]) -> Result<(), Failure> {
    let text = match words {
        ["--help" | "-h" | "help"] => HELP.into(),
        ["list"] => listing(&bytes_of("-")?)?,
        ["list", file] => listing(&bytes_of(file)?)?,
        ["steps", "-"] => return Err(misused("the record of steps is a file")),
        ["steps", file] => return steps::run(&read(&bytes_of(file)?)?),
        [command, file, numbers @ ..] => questions::answer(command, file, numbers)?,
        _ => return Err(misused("a command and a file are needed")),
    };
    io::stdout().write_all(text.as_bytes())?;
    Ok(())
}

/// The bytes of a file, or of standard input.
fn bytes_of(file: &str) -> Result<Vec<u8>, Failure> {
    let mut bytes = Vec::new();
    if file == "-" {
        io::stdin().read_to_end(&mut bytes)?;
        return Ok(bytes);
    }
    std::fs::read(file).map_err(|error| misused(&format!("{file}: {error}")))
}

fn misused(message: &str) -> Failure {
    Failure::Misused(message.into())
}
