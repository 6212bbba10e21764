//! The questions that are timed, of the library and of the plain program; their answers are compared.

use crate::clock::time;
use crate::shapes::{self, ASKED};
use crate::{corners, cycle, every_window, judge, record, search, steps};
use domvurtesz::{State, Table, Verdict, read};
use std::hint::black_box;

/// The longest window that may be asked about.
pub const LONGEST_WINDOW: u32 = 2_000_000;
/// The longest message that may be waited for.
pub const LONGEST_MESSAGE: u32 = 65_535;
pub const FILLING: usize = 2 * Table::PERIOD as usize;
pub const QUEUE: u32 = ASKED as u32;
const VALUES: [u16; 8] = [40_000; 8];

/// Microseconds.
pub struct Times {
    pub library: f64,
    pub plain: f64,
}

/// A question with its name.
pub type Question = (&'static str, fn(&Table) -> Times);

pub const ALL: [Question; 11] = [
    ("judge", judge),
    ("read", read_record),
    ("write", write),
    ("least, P - 1", |table| least(table, u32::from(Table::PERIOD) - 1)),
    ("least, 2,000,000", |table| least(table, LONGEST_WINDOW)),
    ("filling", fill),
    ("verdict, sparse", verdict),
    ("verdict, dense", |table| verdict(&shapes::dense(table))),
    ("listing", |table| listing(&shapes::shared(table))),
    ("wait for 65,535", wait),
    ("step", step),
];

fn judge(table: &Table) -> Times {
    assert!(table.judge().is_ok() && judge::is_well_formed(table));
    Times {
        library: time(|| black_box(table).judge()),
        plain: time(|| judge::is_well_formed(black_box(table))),
    }
}

fn read_record(table: &Table) -> Times {
    let record = written(table);
    assert_eq!((read(&record), record::read(&record)), (Ok(*table), Some(*table)));
    Times { library: time(|| read(black_box(&record))), plain: time(|| record::read(black_box(&record))) }
}

fn written(table: &Table) -> Vec<u8> {
    let mut record = vec![0; Table::RECORD];
    let length = table.write(&mut record).expect("the shape is well formed");
    record.truncate(length);
    record
}

fn write(table: &Table) -> Times {
    let mut out = vec![0; Table::RECORD];
    let library = time(|| {
        out.fill(0);
        black_box(table).write(&mut out)
    });
    let mut expected = vec![0; Table::RECORD];
    let plain = time(|| {
        expected.fill(0);
        record::write(black_box(table), &mut expected)
    });
    assert_eq!(out, expected);
    Times { library, plain }
}

fn least(table: &Table, window: u32) -> Times {
    let library = || black_box(table).least(QUEUE, window);
    let plain = || search::least(black_box(table), ASKED, window);
    assert_eq!(library().ok(), plain());
    Times { library: time(library), plain: time(plain) }
}

fn fill(table: &Table) -> Times {
    let mut filled = vec![0; FILLING];
    let library = time(|| {
        filled.fill(0);
        black_box(table).fill(QUEUE, &mut filled)
    });
    let mut expected = vec![0; FILLING];
    let plain = time(|| {
        expected.fill(0);
        judge::is_well_formed(black_box(table)).then(|| corners::fill(table, ASKED, &mut expected))
    });
    assert_eq!(filled, expected);
    Times { library, plain }
}

/// The filling of the plain program that tries every window.
pub fn try_every_window(table: &Table) -> f64 {
    let mut filled = vec![0; FILLING];
    table.fill(QUEUE, &mut filled).expect("the shape is well formed");
    let mut expected = vec![0; FILLING];
    let plain = time(|| {
        expected.fill(0);
        judge::is_well_formed(black_box(table)).then(|| every_window::fill(table, ASKED, &mut expected))
    });
    assert_eq!(filled, expected);
    plain
}

fn verdict(table: &Table) -> Times {
    let library = || black_box(table).verdict(QUEUE);
    let plain = || search::verdict(black_box(table), ASKED);
    assert_eq!(library().ok(), plain());
    assert_eq!(plain(), Some(Verdict::Meets), "the search goes to its end");
    Times { library: time(library), plain: time(plain) }
}

/// Cycle and verdict of every queue.
fn listing(table: &Table) -> Times {
    let queues = || 1..=Table::QUEUES;
    let library = || -> Vec<_> {
        let line = |queue| (black_box(table).cycle(queue).ok(), black_box(table).verdict(queue).ok());
        queues().map(u32::from).map(line).collect()
    };
    let plain = || -> Vec<_> {
        let line = |queue| (cycle::cycle(black_box(table), queue), search::verdict(black_box(table), queue));
        queues().map(line).collect()
    };
    assert_eq!(library(), plain());
    assert!(plain().iter().all(|(cycle, verdict)| cycle.is_some() && verdict.is_some()));
    Times { library: time(library), plain: time(plain) }
}

fn wait(table: &Table) -> Times {
    let library = || black_box(table).wait(QUEUE, LONGEST_MESSAGE);
    let plain = || search::wait(black_box(table), ASKED, LONGEST_MESSAGE);
    assert_eq!(library().ok(), plain());
    Times { library: time(library), plain: time(plain) }
}

/// At the root's last tick, before every task is released.
pub fn state(table: &Table) -> State {
    let fresh = State::fresh(table).expect("the shape is well formed");
    State { done: table.location[0].ticks - 1, ..fresh }
}

fn step(table: &Table) -> Times {
    let state = state(table);
    let library = || black_box(&state).step(black_box(table), VALUES, u32::MAX);
    let plain = || steps::step(black_box(&state), black_box(table), &VALUES, u32::MAX);
    assert_eq!(library().ok(), plain());
    Times { library: time(library), plain: time(plain) }
}
