//! What the program crates/cases asks about, what was worked out by hand for each case, and the lister's answers;
//! and the sample records of tables/.
//! The answers come from the lister alone; a hand-worked outcome that differs from the lister's stops the making.

pub mod bounds;
pub mod case;
pub mod question;
pub mod records;
pub mod sample;
pub mod steps;
pub mod stores;
pub mod verdicts;

use case::Case;
use sample::Sample;

/// The files of crates/cases/data in the order in which they are read, each with its cases.
pub fn files() -> [(&'static str, Vec<Case>); 4] {
    [
        ("records", records::all()),
        ("bounds", bounds::all()),
        ("verdicts", verdicts::all()),
        ("steps", steps::all()),
    ]
}

/// The tables of tables/, each by the name of its record.
pub fn tables() -> [(&'static str, Sample); 6] {
    [
        ("a", sample::a()),
        ("b", sample::b()),
        ("figure4", sample::figure4()),
        ("cellar", stores::cellar()),
        ("draft", stores::draft()),
        ("ripening", stores::ripening()),
    ]
}

/// The bytes of one file: for each case
/// `length of name (1) | kind (1) | two numbers (4 each) | length of steps (2) | length of record (2) | name | steps | record`,
/// numbers big-endian.
pub fn bytes(cases: &[Case]) -> Vec<u8> {
    cases.iter().flat_map(Case::entry).collect()
}

/// The lines of crates/cases/stdout, or the first case whose hand-worked outcome is not the lister's.
pub fn answers() -> Result<String, String> {
    files().iter().flat_map(|(_, cases)| cases).map(Case::line).collect()
}
