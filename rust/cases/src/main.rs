//! `cases DIR` makes stdout and the files of data/ in crates/cases, and the records of tables/. DIR is the top folder.

use std::path::Path;
use std::process::ExitCode;

fn main() -> ExitCode {
    let Some(folder) = std::env::args().nth(1) else {
        eprintln!("usage: cases DIR");
        return ExitCode::from(2);
    };
    match make(Path::new(&folder)) {
        Ok(()) => ExitCode::SUCCESS,
        Err(message) => {
            eprintln!("cases: {message}");
            ExitCode::FAILURE
        }
    }
}

fn make(folder: &Path) -> Result<(), String> {
    let put = |name: &str, bytes: &[u8]| {
        std::fs::write(folder.join(name), bytes).map_err(|error| format!("{name}: {error}"))
    };
    put("crates/cases/stdout", cases::answers()?.as_bytes())?;
    for (file, cases) in cases::files() {
        put(&format!("crates/cases/data/{file}"), &cases::bytes(&cases))?;
    }
    for (name, table) in cases::tables() {
        put(&format!("tables/{name}.record"), &table.bytes())?;
    }
    Ok(())
}
