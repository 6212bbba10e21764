//! Why an answer is refused, and where (docs/RULES.md, Refusals).

use std::fmt;

/// The sixteen numbers of refusal by their names.
#[derive(Clone, Copy, Debug, PartialEq, Eq, PartialOrd, Ord, Hash)]
#[repr(u8)]
pub enum Kind {
    Cut = 1,
    Field,
    Count,
    Value,
    Shape,
    Gap,
    Overlap,
    Period,
    Task,
    Queue,
    Amount,
    Never,
    Horizon,
    State,
    Early,
    Room,
}

/// The place is an offset in a record, the number of a field or of a task, or 0, as the kind has it.
#[derive(Clone, Copy, Debug, PartialEq, Eq, Hash)]
pub struct Refusal {
    pub kind: Kind,
    pub place: usize,
}

impl Kind {
    /// From number 1 on.
    pub const ALL: [Kind; 16] = [
        Kind::Cut,
        Kind::Field,
        Kind::Count,
        Kind::Value,
        Kind::Shape,
        Kind::Gap,
        Kind::Overlap,
        Kind::Period,
        Kind::Task,
        Kind::Queue,
        Kind::Amount,
        Kind::Never,
        Kind::Horizon,
        Kind::State,
        Kind::Early,
        Kind::Room,
    ];

    pub fn of_number(number: u8) -> Option<Kind> {
        Kind::ALL.into_iter().find(|kind| kind.number() == number)
    }

    pub fn number(self) -> u8 {
        self as u8
    }

    pub fn name(self) -> &'static str {
        match self {
            Kind::Cut => "CUT",
            Kind::Field => "FIELD",
            Kind::Count => "COUNT",
            Kind::Value => "VALUE",
            Kind::Shape => "SHAPE",
            Kind::Gap => "GAP",
            Kind::Overlap => "OVERLAP",
            Kind::Period => "PERIOD",
            Kind::Task => "TASK",
            Kind::Queue => "QUEUE",
            Kind::Amount => "AMOUNT",
            Kind::Never => "NEVER",
            Kind::Horizon => "HORIZON",
            Kind::State => "STATE",
            Kind::Early => "EARLY",
            Kind::Room => "ROOM",
        }
    }
}

impl Refusal {
    pub fn number(&self) -> u8 {
        self.kind.number()
    }

    pub fn name(&self) -> &'static str {
        self.kind.name()
    }

    /// What the place counts, in words.
    fn whereabouts(&self) -> String {
        let place = self.place;
        match self.kind {
            Kind::Count if place == 0 => "the table".into(),
            Kind::Cut | Kind::Field | Kind::Count => format!("the field that begins at byte {place}"),
            Kind::Value if place == 0 => "field 0, the header,".into(),
            Kind::Task => format!("field {place}, a task,"),
            Kind::Value | Kind::Shape | Kind::Gap | Kind::Overlap | Kind::Period => {
                format!("field {place}, location {},", place.saturating_sub(1))
            }
            Kind::Early => format!("task {place}"),
            Kind::Queue => "the queue asked about".into(),
            Kind::Amount => "the number asked about".into(),
            Kind::Never | Kind::Horizon => "this queue".into(),
            Kind::State => "the runner state".into(),
            Kind::Room => "the lent buffer".into(),
        }
    }

    /// What is wrong there, or what must be.
    fn fault(&self) -> &'static str {
        match (self.kind, self.place) {
            (Kind::Cut, _) => "is missing or needs more bytes than there are",
            (Kind::Field, _) => "has a wrong tag or length, or stands out of order",
            (Kind::Count, 0) => "must have 1 to 128 locations and at most 32 tasks",
            (Kind::Count, _) => "is a 129th location or a 33rd task",
            (Kind::Value, 0) => "must have version 1, 1 to 16 queues and a P of 1 to 1,024",
            (Kind::Value, _) => LOCATION,
            (Kind::Shape, 1) => ROOT,
            (Kind::Shape, _) => "must name a parent below its own number and, as a leaf, variable 0",
            (Kind::Gap, _) => "has children whose guards leave out some value of 0..65,535",
            (Kind::Overlap, _) => "has two children whose guards hold the same value",
            (Kind::Period, _) => "is a leaf, and the ticks on its path do not sum to P",
            (Kind::Task, _) => "must name a queue of the table and have 1 <= C <= D <= T",
            (Kind::Queue, _) => "must be 1 to the table's queues",
            (Kind::Amount, _) => AMOUNTS,
            (Kind::Never, _) => "gets nothing in some cycle, so that no wait is long enough",
            (Kind::Horizon, _) => MULTIPLE,
            (Kind::State, _) => "is not lawful for this table",
            (Kind::Early, _) => "is not in the table, or was last released less than T ticks ago",
            (Kind::Room, _) => "must be as long as the record, or have 2P entries",
        }
    }
}

const LOCATION: &str =
    "must have 1 to 1,024 ticks, a queue of the table or 0, a variable up to 7 and a guard low <= high";
const ROOT: &str =
    "is the root: it must name parent 0, have the guard 0..65,535 and, as a leaf, name variable 0";
const AMOUNTS: &str =
    "must be a window up to 2,000,000, a wait for 1 to 65,535 ticks or a field of the record";
const MULTIPLE: &str =
    "has T whose least common multiple with P is above 1,000,000; factors shared with P lower it";

impl fmt::Display for Refusal {
    fn fmt(&self, out: &mut fmt::Formatter) -> fmt::Result {
        let Refusal { kind, place } = self;
        write!(out, "refused {} {place}, {}: ", kind.number(), kind.name())?;
        write!(out, "{} {}", self.whereabouts(), self.fault())
    }
}

impl std::error::Error for Refusal {}
