//! The built command: answers, refusals, and what is not understood. The records are those of tables/; the
//! numbers are those of docs/RULES.md and of tables/README.md.

use std::io::Write;
use std::process::{Command, Output, Stdio};

const TABLES: &str = concat!(env!("CARGO_MANIFEST_DIR"), "/../../tables/");
const A: &[u8] = include_bytes!("../../../tables/a.record");

/// Runs `plan` with these words; a word that ends in `.record` is a sample record.
fn plan(words: &str, input: &[u8]) -> Output {
    let sample =
        |word: &str| if word.ends_with(".record") { TABLES.to_owned() + word } else { word.to_owned() };
    let mut program = Command::new(env!("CARGO_BIN_EXE_plan"))
        .args(words.split_whitespace().map(sample))
        .stdin(Stdio::piped())
        .stdout(Stdio::piped())
        .stderr(Stdio::piped())
        .spawn()
        .unwrap();
    // A program that does not read its input may be gone before it is written.
    let _ = program.stdin.take().unwrap().write_all(input);
    program.wait_with_output().unwrap()
}

/// What is printed, what is told on standard error, and the status.
fn said(words: &str, input: &[u8]) -> (String, String, i32) {
    let Output { status, stdout, stderr } = plan(words, input);
    (String::from_utf8(stdout).unwrap(), String::from_utf8(stderr).unwrap(), status.code().unwrap())
}

fn prints(words: &str, input: &[u8], text: &str) {
    assert_eq!(said(words, input), (text.into(), String::new(), 0), "plan {words}");
}

/// A refusal on standard error that begins with these words.
fn refuses(words: &str, input: &[u8], sentence: &str) {
    let (printed, told, status) = said(words, input);
    assert_eq!((printed.as_str(), status), ("", 1), "plan {words}");
    assert!(told.starts_with(&format!("plan: refused {sentence}")), "plan {words}: {told}");
}

fn misunderstands(words: &str, message: &str) {
    let (printed, told, status) = said(words, b"");
    assert_eq!((printed.as_str(), status), ("", 2), "plan {words}");
    assert!(told.starts_with(&format!("plan: {message}")), "plan {words}: {told}");
}

#[test]
fn listings_are_those_of_the_rules() {
    let a = "tree 3 2 4 1\nqueue 1 1 4 meets\nqueue 2 0 3 meets\n";
    prints("list a.record", b"", a);
    prints("list -", A, a);
    prints("list b.record", b"", "tree 5 1 5 0\nqueue 1 2 2 meets\n");
    let draft = "tree 8 4 20 5
queue 1 0 6 short 40 2 0
queue 2 8 8 meets
queue 3 2 2 meets
queue 4 0 10 horizon
";
    prints("list draft.record", b"", draft);
}

#[test]
fn a_refused_listing_is_one_line() {
    let line = |words: &str, input: &[u8]| {
        let (printed, told, status) = said(words, input);
        assert_eq!(status, 1);
        (printed, told)
    };
    let (printed, told) = line("list -", b"");
    assert_eq!(printed, "refused 1 0\n");
    assert!(told.starts_with("plan: refused 1 0, CUT: the field that begins at byte 0 "));
    assert_eq!(line("list -", &[A, b"\n"].concat()).0, "refused 1 53\n");
    assert_eq!(line("list -", &A[..19]).0, "refused 8 1\n");
    assert_eq!(line("list -", &[0; 5_000]).0, "refused 2 0\n");
}

#[test]
fn single_questions_are_answered_in_a_line() {
    prints("judge a.record", b"", "accepted\n");
    prints("least a.record 1 7", b"", "1\n");
    prints("least - 1 8", A, "2\n");
    prints("most a.record 2 5", b"", "4\n");
    prints("cycle a.record 2", b"", "0 3\n");
    prints("demand a.record 1 8", b"", "2\n");
    prints("verdict a.record 1", b"", "meets\n");
    prints("verdict draft.record 1", b"", "short 40 2 0\n");
    prints("wait a.record 1 2", b"", "8\n");
    prints("wait figure4.record 1 3", b"", "26\n");
}

#[test]
fn a_filling_has_a_line_for_each_window() {
    prints("fill b.record 1", b"", "0 0\n1 0\n2 0\n3 0\n4 0\n5 0\n6 1\n7 2\n8 2\n9 2\n");
}

#[test]
fn a_table_is_shown_as_a_tree() {
    let a = "3 locations, 2 queues, P 4, 1 task

location 0: queue 1, 1 tick
variable 0 is 0..99:
  location 1: queue 1, 3 ticks
variable 0 is 100..65535:
  location 2: queue 2, 3 ticks

task 0: queue 1, C 1, D 4, T 4
";
    prints("show a.record", b"", a);
    let b = "5 locations, 1 queue, P 5, 0 tasks

location 0: nobody, 1 tick
variable 0 is 0..9:
  location 1: queue 1, 2 ticks
  location 3: nobody, 2 ticks
variable 0 is 10..65535:
  location 2: nobody, 2 ticks
  location 4: queue 1, 2 ticks
";
    prints("show b.record", b"", b);
}

#[test]
fn a_variable_that_decides_nothing_is_shown_too() {
    // The root names variable 3; its one child takes every value.
    let record = [
        &[1, 0, 4, 1, 1, 0, 2][..],
        &[2, 0, 9, 0, 1, 0, 1, 3, 0, 0, 255, 255],
        &[2, 0, 9, 0, 0, 0, 1, 0, 0, 0, 255, 255],
    ]
    .concat();
    let text = "2 locations, 1 queue, P 2, 0 tasks

location 0: queue 1, 1 tick
variable 3 is 0..65535:
  location 1: nobody, 1 tick
";
    prints("show -", &record, text);
}

#[test]
fn refusals_say_what_to_look_at() {
    // The guard of location 2 from 101 on.
    let gap = [&A[..40], &[101], &A[41..]].concat();
    refuses("judge -", &gap, "6 1, GAP: field 1, location 0, has children whose guards leave out");
    refuses("show -", &A[..52], "1 43, CUT: the field that begins at byte 43 ");
    refuses("least a.record 0 0", b"", "10 0, QUEUE: the queue asked about must be 1 to");
    refuses("cycle a.record 3", b"", "10 0, QUEUE: ");
    refuses("most a.record 1 2000001", b"", "11 0, AMOUNT: ");
    refuses("wait a.record 1 0", b"", "11 0, AMOUNT: ");
    refuses("wait a.record 2 1", b"", "12 0, NEVER: this queue gets nothing in some cycle");
    refuses("verdict draft.record 4", b"", "13 0, HORIZON: ");
}

#[test]
fn numbers_of_any_size_are_refused_and_do_not_wrap() {
    // 4,294,967,297 would be queue 1 and 4,295,000,000 a window of 32,704 in 32 bits.
    refuses("cycle a.record 4294967297", b"", "10 0, QUEUE: ");
    refuses("least a.record 1 4295000000", b"", "11 0, AMOUNT: ");
    refuses("demand a.record 1 99999999999999999999999999", b"", "11 0, AMOUNT: ");
    refuses("wait a.record 1 4294967296", b"", "11 0, AMOUNT: ");
    prints("least a.record 1 0000000000000000000000000008", b"", "2\n");
}

#[test]
fn what_is_not_understood_has_status_2() {
    misunderstands("", "a question and a file are needed");
    misunderstands("list", "the question is asked as `plan list FILE`");
    misunderstands("list a.record 1", "the question is asked as `plan list FILE`");
    misunderstands("least a.record 1", "the question is asked as `plan least FILE QUEUE WINDOW`");
    misunderstands("lost a.record 1 1", "there is no question `lost`");
    misunderstands("help lost", "there is no question `lost`");
    for word in ["x", "-1", "+1", "1.5", "0x10", "1,000"] {
        misunderstands(&format!("least a.record 1 {word}"), &format!("`{word}` is no decimal number"));
    }
}

#[test]
fn files_that_cannot_be_read_have_status_2() {
    misunderstands("judge nowhere.record", &format!("{TABLES}nowhere.record: "));
    misunderstands("judge /", "/: ");
}

#[test]
fn help_tells_of_every_question() {
    let (help, _, status) = said("--help", b"");
    assert_eq!(status, 0);
    for name in "list judge show least most cycle fill demand verdict wait".split(' ') {
        assert!(help.contains(&format!("plan {name} FILE")), "{name}");
        let (own, _, status) = said(&format!("{name} --help"), b"");
        assert_eq!(status, 0);
        assert!(own.starts_with(&format!("plan {name} FILE")), "{own}");
        prints(&format!("help {name}"), b"", &own);
    }
}
