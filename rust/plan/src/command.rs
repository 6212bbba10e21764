//! From the words of the command line to the text of an answer: which question, its numbers, and the record.

use std::ffi::{OsStr, OsString};
use std::fs::File;
use std::io::{self, Read};

use domvurtesz::{Refusal, read};

use crate::questions::{self, Question};

/// No record is so long, and a longer input is refused as its first bytes of this number are
/// (docs/RULES.md, The listing).
const ENOUGH: u64 = 2_048;

const HINT: &str = "(plan --help tells more)";

/// Why there is no answer. A listing tells of its refusal on standard output too.
pub enum Failure {
    Refused(Refusal),
    Unlisted(Refusal),
    Misused(String),
}

pub fn answer(words: &[OsString]) -> Result<String, Failure> {
    let texts: Vec<&str> = words.iter().map(|word| word.to_str().unwrap_or_default()).collect();
    match texts[..] {
        ["--help" | "-h" | "help"] => Ok(questions::help()),
        ["help", name] | [name, "--help" | "-h"] => Ok(question(name)?.help()),
        [name, _, ref numbers @ ..] => ask(question(name)?, &words[1], numbers),
        [name] => Err(misused(question(name)?)),
        [] => Err(Failure::Misused(format!("a question and a file are needed {HINT}"))),
    }
}

fn question(name: &str) -> Result<&'static Question, Failure> {
    questions::named(name).ok_or_else(|| Failure::Misused(format!("there is no question `{name}` {HINT}")))
}

fn misused(question: &Question) -> Failure {
    Failure::Misused(format!("the question is asked as `{}` {HINT}", question.usage()))
}

/// The file is read only once the question is understood.
fn ask(question: &Question, file: &OsStr, words: &[&str]) -> Result<String, Failure> {
    if words.len() != question.numbers.len() {
        return Err(misused(question));
    }
    let numbers: Vec<u32> = words.iter().map(|word| number(word)).collect::<Result<_, _>>()?;
    let record = bytes_of(file).map_err(|error| unreadable(file, &error))?;
    let text = read(&record).and_then(|table| (question.answer)(&table, &numbers));
    text.map_err(|refusal| question.failure(refusal))
}

/// Every limit is far below 32 bits, so a number that needs more is refused as the largest of them is.
fn number(word: &str) -> Result<u32, Failure> {
    let is_decimal = !word.is_empty() && word.bytes().all(|byte| byte.is_ascii_digit());
    if !is_decimal {
        return Err(Failure::Misused(format!("`{word}` is no decimal number")));
    }
    Ok(word.parse().unwrap_or(u32::MAX))
}

fn bytes_of(file: &OsStr) -> io::Result<Vec<u8>> {
    let mut bytes = Vec::new();
    if file == "-" {
        io::stdin().take(ENOUGH).read_to_end(&mut bytes)?;
    } else {
        File::open(file)?.take(ENOUGH).read_to_end(&mut bytes)?;
    }
    Ok(bytes)
}

fn unreadable(file: &OsStr, error: &io::Error) -> Failure {
    Failure::Misused(format!("{}: {error}", file.display()))
}
