//! The command line: what is printed, and the exit status. The sample records are those of tables/.

use std::io::Write;
use std::process::{Command, Output, Stdio};

use crate::samples::record_a;

const TABLES: &str = concat!(env!("CARGO_MANIFEST_DIR"), "/../../tables/");

/// Runs `lister` with these words; a word that ends in `.record` is a sample record.
fn lister(words: &str, input: &[u8]) -> Output {
    let sample =
        |word: &str| if word.ends_with(".record") { TABLES.to_owned() + word } else { word.to_owned() };
    let mut program = Command::new(env!("CARGO_BIN_EXE_lister"))
        .args(words.split_whitespace().map(sample))
        .stdin(Stdio::piped())
        .stdout(Stdio::piped())
        .stderr(Stdio::piped())
        .spawn()
        .unwrap();
    // A program that does not read its input may be gone before it is written.
    let _ = program.stdin.take().unwrap().write_all(input);
    program.wait_with_output().unwrap()
}

fn prints(words: &str, input: &[u8], text: &str, status: i32) {
    let output = lister(words, input);
    let printed = String::from_utf8(output.stdout).unwrap();
    assert_eq!((printed.as_str(), output.status.code()), (text, Some(status)), "lister {words}");
}

/// The listing that the page beside a sample explains: what its rows on `tree` and on each `queue` quote.
fn explained(sample: &str) -> String {
    let page = std::fs::read_to_string(format!("{TABLES}{sample}.md")).unwrap();
    let quoted = page.lines().filter_map(|row| row.strip_prefix("| `")?.split('`').next());
    quoted.map(|line| line.to_owned() + "\n").collect()
}

#[test]
fn the_samples_are_listed_as_their_pages_say() {
    for sample in ["a", "b", "figure4", "cellar", "draft", "ripening"] {
        prints(&format!("list {sample}.record"), b"", &explained(sample), 0);
    }
}

#[test]
fn a_record_comes_from_a_file_or_from_standard_input() {
    let a = "tree 3 2 4 1\nqueue 1 1 4 meets\nqueue 2 0 3 meets\n";
    prints("list a.record", b"", a, 0);
    prints("list", &record_a(), a, 0);
    prints("list -", &record_a(), a, 0);
}

#[test]
fn single_questions_are_answered_in_a_line() {
    prints("judge a.record", b"", "accepted\n", 0);
    prints("least a.record 1 7", b"", "1\n", 0);
    prints("least - 1 8", &record_a(), "2\n", 0);
    prints("most a.record 2 5", b"", "4\n", 0);
    prints("cycle a.record 2", b"", "0 3\n", 0);
    prints("fill b.record 1", b"", "0 0 0 0 0 0 1 2 2 2\n", 0);
    prints("demand a.record 1 8", b"", "2\n", 0);
    prints("verdict a.record 1", b"", "meets\n", 0);
    prints("verdict draft.record 1", b"", "short 40 2 0\n", 0);
    prints("wait a.record 1 2", b"", "8\n", 0);
    prints("field a.record 4", b"", "46 7\n", 0);
    let a = "version 1 queues 2 period 4
location 0 parent 0 queue 1 ticks 1 variable 0 low 0 high 65535
location 1 parent 0 queue 1 ticks 3 variable 0 low 0 high 99
location 2 parent 0 queue 2 ticks 3 variable 0 low 100 high 65535
task 0 queue 1 work 1 deadline 4 gap 4
";
    prints("show a.record", b"", a, 0);
}

#[test]
fn refusals_have_status_1() {
    prints("list", b"", "refused 1 0\n", 1);
    prints("list", &[&record_a()[..], b"\n"].concat(), "refused 1 53\n", 1);
    prints("judge -", &record_a()[..19], "refused 8 1\n", 1);
    prints("least a.record 0 0", b"", "refused 10 0\n", 1);
    prints("least a.record 1 2000001", b"", "refused 11 0\n", 1);
    prints("field a.record 5", b"", "refused 11 0\n", 1);
    prints("wait a.record 2 1", b"", "refused 12 0\n", 1);
    prints("verdict draft.record 4", b"", "refused 13 0\n", 1);
    prints("fill b.record 1 9", b"", "refused 16 0\n", 1);
}

#[test]
fn what_is_not_understood_has_status_2() {
    let bad = [
        "",
        "least a.record 1",
        "least a.record 1 x",
        "least a.record 1 -1",
        "lost a.record 1 1",
        "judge nowhere.record",
        "list a.record 1",
        "steps -",
        "steps",
    ];
    for words in bad {
        let output = lister(words, b"");
        assert_eq!((output.status.code(), output.stdout.len()), (Some(2), 0), "lister {words}");
        assert!(output.stderr.starts_with(b"lister: "));
    }
}

#[test]
fn help_names_every_command() {
    let output = lister("--help", b"");
    let help = String::from_utf8(output.stdout).unwrap();
    assert_eq!(output.status.code(), Some(0));
    let commands = "list judge show field least most cycle fill demand verdict wait steps";
    for command in commands.split(' ') {
        assert!(help.contains(&format!("lister {command} ")), "{command}");
    }
}

#[test]
fn steps_go_on_after_a_refusal() {
    let input = b"100 0 0 0 0 0 0 0 1\n100 0 0 0 0 0 0 0 1\n100 0 0 0 0 0 0 0 2\n0 0 0 0 0 0 0 0 0\n";
    prints("steps a.record", input, "1 0 0\nrefused 15 0\nrefused 15 1\n2 - 0\n", 0);
    prints("steps a.record", b"1 2 3\n", "", 2);
    prints("steps a.record", b"65536 0 0 0 0 0 0 0 0\n", "", 2);
    prints("steps a.record", b"\n", "", 2);
}
