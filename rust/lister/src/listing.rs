//! The lines of the listing program (docs/RULES.md, The listing).

use crate::bounds::cycle;
use crate::demand::{Verdict, verdict};
use crate::record::read;
use crate::refusal::{HORIZON, Refusal};
use crate::table::Table;

/// All lines, each with its line feed; of a refused record the refusal is the one line.
pub fn listing(record: &[u8]) -> Result<String, Refusal> {
    let table = read(record)?;
    let Table { queues, period, location_count, task_count, .. } = table;
    let mut lines = format!("tree {location_count} {queues} {period} {task_count}\n");
    for queue in 1..=u64::from(queues) {
        let (least, most) = cycle(&table, queue)?;
        let verdict = verdict_words(&table, queue)?;
        lines += &format!("queue {queue} {least} {most} {verdict}\n");
    }
    Ok(lines)
}

/// A verdict beyond the horizon is a word of the listing and no refusal of it.
fn verdict_words(table: &Table, queue: u64) -> Result<String, Refusal> {
    match verdict(table, queue) {
        Ok(verdict) => Ok(verdict.to_string()),
        Err(refusal) if refusal.number == HORIZON => Ok("horizon".into()),
        Err(refusal) => Err(refusal),
    }
}

impl std::fmt::Display for Verdict {
    fn fmt(&self, out: &mut std::fmt::Formatter) -> std::fmt::Result {
        match self {
            Verdict::Meets => write!(out, "meets"),
            Verdict::Short { window, demand, supply } => write!(out, "short {window} {demand} {supply}"),
        }
    }
}
