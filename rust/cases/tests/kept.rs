//! The repository keeps exactly what this crate makes.

use std::path::Path;

/// The buffer of the program under test, which reads each file whole.
const BUFFER: usize = 65_536;

/// A file by its path from the top folder.
fn kept(name: &str) -> Vec<u8> {
    let file = Path::new(env!("CARGO_MANIFEST_DIR")).join("../..").join(name);
    std::fs::read(&file).unwrap_or_else(|error| panic!("{}: {error}", file.display()))
}

#[test]
fn the_files_are_those_made_here() {
    for (file, cases) in cases::files() {
        assert!(kept(&format!("crates/cases/data/{file}")) == cases::bytes(&cases), "make data/{file} again");
    }
}

#[test]
fn every_file_fits_the_buffer() {
    for (file, cases) in cases::files() {
        assert!(cases::bytes(&cases).len() <= BUFFER, "data/{file} is too long");
    }
}

#[test]
fn the_answers_are_the_listers() {
    assert_eq!(String::from_utf8(kept("crates/cases/stdout")).unwrap(), cases::answers().unwrap());
}

#[test]
fn the_samples_are_those_of_tables() {
    for (name, table) in cases::tables() {
        assert_eq!(kept(&format!("tables/{name}.record")), table.bytes(), "tables/{name}.record");
    }
}

#[test]
fn every_name_is_used_once() {
    let mut names: Vec<String> =
        cases::files().into_iter().flat_map(|(_, cases)| cases).map(|case| case.name).collect();
    let count = names.len();
    names.sort();
    names.dedup();
    assert_eq!(names.len(), count);
}
