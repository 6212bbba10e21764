//! Single questions on a record, each answered in one line; only `show` has a line for each field.

use lister::{Table, cycle, demand, field, fill, least, most, read, verdict, wait};

use crate::{Failure, bytes_of, misused};

/// The file is read only once the question is understood.
pub fn answer(command: &str, file: &str, words: &[&str]) -> Result<String, Failure> {
    let numbers = numbers_of(words)?;
    let table = || -> Result<Table, Failure> { Ok(read(&bytes_of(file)?)?) };
    let line = match (command, &numbers[..]) {
        ("judge", []) => table().map(|_| "accepted".into())?,
        ("show", []) => shown(&table()?),
        ("field", &[k]) => placed(&bytes_of(file)?, k)?,
        ("least", &[queue, window]) => least(&table()?, queue, window)?.to_string(),
        ("most", &[queue, window]) => most(&table()?, queue, window)?.to_string(),
        ("cycle", &[queue]) => cycled(&table()?, queue)?,
        ("fill", &[queue]) => filled(&table()?, queue, u64::MAX)?,
        ("fill", &[queue, entries]) => filled(&table()?, queue, entries)?,
        ("demand", &[queue, window]) => demand(&table()?, queue, window)?.to_string(),
        ("verdict", &[queue]) => verdict(&table()?, queue)?.to_string(),
        ("wait", &[queue, ticks]) => wait(&table()?, queue, ticks)?.to_string(),
        _ => return Err(misunderstood(command, words.len())),
    };
    Ok(line + "\n")
}

fn misunderstood(command: &str, numbers: usize) -> Failure {
    misused(&format!("no command `{command}` with a file and {numbers} numbers"))
}

fn numbers_of(words: &[&str]) -> Result<Vec<u64>, Failure> {
    let number = |word: &&str| word.parse().map_err(|_| no_number(word));
    words.iter().map(number).collect()
}

pub fn no_number(word: &str) -> Failure {
    misused(&format!("`{word}` is no number that is allowed here"))
}

fn placed(record: &[u8], k: u64) -> Result<String, Failure> {
    let payload = field(record, k)?;
    Ok(format!("{} {}", payload.start, payload.len()))
}

fn cycled(table: &Table, queue: u64) -> Result<String, Failure> {
    let (least, most) = cycle(table, queue)?;
    Ok(format!("{least} {most}"))
}

/// Entries past 2P stay as they are, so no more than 2P are lent.
fn filled(table: &Table, queue: u64, entries: u64) -> Result<String, Failure> {
    let mut out = vec![0; entries.min(2 * u64::from(table.period)) as usize];
    fill(table, queue, &mut out)?;
    let words: Vec<String> = out.iter().map(u32::to_string).collect();
    Ok(words.join(" "))
}

fn shown(table: &Table) -> String {
    let mut lines =
        vec![format!("version {} queues {} period {}", table.version, table.queues, table.period)];
    for (v, l) in table.locations().iter().enumerate() {
        lines.push(format!(
            "location {v} parent {} queue {} ticks {} variable {} low {} high {}",
            l.parent, l.queue, l.ticks, l.variable, l.low, l.high
        ));
    }
    for (i, t) in table.tasks().iter().enumerate() {
        lines.push(format!(
            "task {i} queue {} work {} deadline {} gap {}",
            t.queue, t.work, t.deadline, t.gap
        ));
    }
    lines.join("\n")
}
