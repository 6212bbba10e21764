//! The listing of every record of the cases, good and bad, beside the lister's.

use std::collections::BTreeSet;
use std::io::Write;
use std::process::{Command, Stdio};

/// What `plan list` prints about a record, and its status.
fn listed(record: &[u8]) -> (String, i32) {
    let mut program = Command::new(env!("CARGO_BIN_EXE_plan"))
        .args(["list", "-"])
        .stdin(Stdio::piped())
        .stdout(Stdio::piped())
        .stderr(Stdio::null())
        .spawn()
        .unwrap();
    program.stdin.take().unwrap().write_all(record).unwrap();
    let output = program.wait_with_output().unwrap();
    (String::from_utf8(output.stdout).unwrap(), output.status.code().unwrap())
}

#[test]
fn listings_are_the_listers() {
    let records: BTreeSet<Vec<u8>> =
        cases::files().into_iter().flat_map(|(_, cases)| cases).map(|case| case.record).collect();
    for record in records {
        let expected = match lister::listing(&record) {
            Ok(lines) => (lines, 0),
            Err(refusal) => (format!("{refusal}\n"), 1),
        };
        assert_eq!(listed(&record), expected, "{record:02X?}");
    }
}
