//! A table as bytes: reading, writing, and one field of a record
//! (docs/RULES.md, The record; Reading, writing and the field question).

use crate::ffi;
use crate::refusal::Refusal;
use crate::table::Table;

/// The table that the record holds, with zeros past its counts.
pub fn read(record: &[u8]) -> Result<Table, Refusal> {
    let answer = ffi::read(record);
    answer.refusal.unless_refused(answer.table)
}

/// The payload of field `k`: the part of the record that holds it.
pub fn field(record: &[u8], k: usize) -> Result<&[u8], Refusal> {
    let answer = ffi::field(record, k);
    answer.refusal.unless_refused(())?;
    Ok(&record[answer.offset..answer.offset + answer.length])
}

impl Table {
    /// The length of the longest record.
    pub const RECORD: usize = 7 + Table::LOCATIONS * 12 + Table::TASKS * 10;

    /// The length of the record, which fills the first bytes of `out`; the others stay as they are.
    pub fn write(&self, out: &mut [u8]) -> Result<usize, Refusal> {
        let answer = ffi::write(*self, out);
        answer.refusal.unless_refused(answer.length)
    }
}
