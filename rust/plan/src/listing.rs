//! The lines of the listing (docs/RULES.md, The listing).

use domvurtesz::{Cycle, Kind, Refusal, Table};

pub fn listing(table: &Table) -> Result<String, Refusal> {
    let Table { locations, queues, period, tasks, .. } = table;
    let mut lines = format!("tree {locations} {queues} {period} {tasks}\n");
    for queue in 1..=u32::from(*queues) {
        let Cycle { least, most } = table.cycle(queue)?;
        let verdict = verdict_words(table, queue)?;
        lines += &format!("queue {queue} {least} {most} {verdict}\n");
    }
    Ok(lines)
}

/// The one line of a refused record.
pub fn refused(refusal: &Refusal) -> String {
    format!("refused {} {}\n", refusal.number(), refusal.place)
}

/// A verdict beyond the horizon is a word of the listing and no refusal of it.
fn verdict_words(table: &Table, queue: u32) -> Result<String, Refusal> {
    match table.verdict(queue) {
        Ok(verdict) => Ok(verdict.to_string()),
        Err(refusal) if refusal.kind == Kind::Horizon => Ok("horizon".into()),
        Err(refusal) => Err(refusal),
    }
}
