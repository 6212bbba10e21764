//! The planners' command: `plan QUESTION FILE NUMBERS` prints the library's answer about a record.

mod command;
mod listing;
mod questions;
mod shown;

use std::ffi::OsString;
use std::io::{self, Write};
use std::process::ExitCode;

use command::Failure;

const REFUSED: u8 = 1;
const MISUSED: u8 = 2;

fn main() -> ExitCode {
    let words: Vec<OsString> = std::env::args_os().skip(1).collect();
    let printed = command::answer(&words).and_then(|text| print(&text));
    match printed {
        Ok(()) => ExitCode::SUCCESS,
        Err(failure) => tell(failure),
    }
}

/// A reader that has seen enough, such as `head`, is no failure.
fn print(text: &str) -> Result<(), Failure> {
    match io::stdout().write_all(text.as_bytes()) {
        Err(error) if error.kind() != io::ErrorKind::BrokenPipe => Err(Failure::Misused(error.to_string())),
        _ => Ok(()),
    }
}

fn tell(failure: Failure) -> ExitCode {
    match failure {
        Failure::Refused(refusal) => {
            eprintln!("plan: {refusal}");
            ExitCode::from(REFUSED)
        }
        Failure::Unlisted(refusal) => {
            // The one line of the rules goes first; nothing is left to do where it cannot be printed.
            let _ = print(&listing::refused(&refusal));
            tell(Failure::Refused(refusal))
        }
        Failure::Misused(message) => {
            eprintln!("plan: {message}");
            ExitCode::from(MISUSED)
        }
    }
}
