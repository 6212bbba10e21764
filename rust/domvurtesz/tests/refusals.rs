//! Refusals as numbers, names and sentences.

use domvurtesz::{Kind, Refusal};

fn sentence(kind: Kind, place: usize) -> String {
    Refusal { kind, place }.to_string()
}

#[test]
fn numbers_and_names_are_those_of_the_rules() {
    let names =
        "CUT FIELD COUNT VALUE SHAPE GAP OVERLAP PERIOD TASK QUEUE AMOUNT NEVER HORIZON STATE EARLY ROOM";
    for (i, name) in names.split(' ').enumerate() {
        let number = 1 + i as u8;
        let kind = Kind::of_number(number).unwrap();
        assert_eq!((kind.number(), kind.name()), (number, name));
        assert!(sentence(kind, 0).starts_with(&format!("refused {number} 0, {name}: ")));
    }
    assert_eq!([Kind::of_number(0), Kind::of_number(17)], [None, None]);
}

#[test]
fn a_sentence_says_what_the_place_counts() {
    let places = [
        (Kind::Cut, 53, "the field that begins at byte 53 is"),
        (Kind::Count, 1_543, "the field that begins at byte 1543 is a 129th location"),
        (Kind::Count, 0, "the table must have 1 to 128 locations"),
        (Kind::Value, 0, "field 0, the header, must have version 1"),
        (Kind::Value, 3, "field 3, location 2, must have 1 to 1,024 ticks"),
        (Kind::Shape, 1, "field 1, location 0, is the root"),
        (Kind::Gap, 1, "field 1, location 0, has children"),
        (Kind::Period, 3, "field 3, location 2, is a leaf"),
        (Kind::Task, 4, "field 4, a task, must name a queue"),
        (Kind::Early, 31, "task 31 is not in the table"),
    ];
    for (kind, place, words) in places {
        let sentence = sentence(kind, place);
        assert!(sentence.contains(&format!(": {words}")), "{sentence}");
    }
}
