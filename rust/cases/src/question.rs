//! What is asked: as numbers for the program under test, and with the lister's answer in words.

use lister::{
    Job, Refusal, State, Step, Table, cycle, demand, field, fill, least, most, read, verdict, wait, write,
};

pub enum Question {
    /// Read the record and write its table into so many bytes.
    Record(u16),
    /// The payload of field k.
    Field(u16),
    /// Read the record, set the number of locations, and write.
    Locations(u16),
    /// Read the record, set the number of tasks, and write.
    Tasks(u16),
    /// Queue and window, here and for most and demand.
    Least(u32, u32),
    Most(u32, u32),
    Cycle(u32),
    /// Queue and how many entries are lent; prints them all.
    Fill(u32, u32),
    /// The same, and prints those from `LATE` on.
    FillLate(u32, u32),
    Demand(u32, u32),
    Verdict(u32),
    /// Queue and ticks.
    Wait(u32, u32),
    /// Every question about the table with so many locations, at queue 0 and beyond every amount; last the steps.
    Every(u16, State, Vec<Tick>),
    /// Steps from the fresh state.
    Fresh(Vec<Tick>),
    /// Steps from a given state.
    Given(State, Vec<Tick>),
}

/// What one step takes: the variables' values, and the set of released tasks.
pub type Tick = ([u16; 8], u32);

/// The bytes lent to the writer, as many as the longest input has.
pub const LENT: u16 = 2_048;

/// What lent bytes and entries hold before.
const FILLED: u8 = 7;

/// Two before the end of the longest filling.
const LATE: usize = 2_046;

/// Above every amount that may be asked about.
const BEYOND: u64 = 2_000_001;

impl Question {
    /// The kind as a letter, and the two numbers that the question takes.
    pub fn numbers(&self) -> (u8, u32, u32) {
        match *self {
            Question::Record(room) => (b'r', room.into(), 0),
            Question::Field(k) => (b'f', k.into(), 0),
            Question::Locations(count) => (b'l', count.into(), 0),
            Question::Tasks(count) => (b't', count.into(), 0),
            Question::Least(queue, window) => (b'L', queue, window),
            Question::Most(queue, window) => (b'M', queue, window),
            Question::Cycle(queue) => (b'C', queue, 0),
            Question::Fill(queue, room) => (b'F', queue, room),
            Question::FillLate(queue, room) => (b'E', queue, room),
            Question::Demand(queue, window) => (b'D', queue, window),
            Question::Verdict(queue) => (b'V', queue, 0),
            Question::Wait(queue, ticks) => (b'W', queue, ticks),
            Question::Every(count, ..) => (b'J', count.into(), 0),
            Question::Fresh(_) => (b'S', 0, 0),
            Question::Given(..) => (b'U', 0, 0),
        }
    }

    /// A given state: location (1), done (2), and for each of 32 jobs since, remaining and left (2 each).
    /// A step: eight values (2 each) and the released set (4).
    pub fn steps(&self) -> Vec<u8> {
        match self {
            Question::Fresh(ticks) => ticks.iter().flat_map(tick_bytes).collect(),
            Question::Given(state, ticks) | Question::Every(_, state, ticks) => {
                let steps = ticks.iter().flat_map(tick_bytes);
                state_bytes(state).into_iter().chain(steps).collect()
            }
            _ => Vec::new(),
        }
    }

    /// What the lister answers to the question about a record.
    pub fn answer(&self, record: &[u8]) -> Result<String, Refusal> {
        let table = || read(record);
        match *self {
            Question::Record(room) => written(&table()?, room, record),
            Question::Field(k) => Ok(format!("accepted{}", decimals(&record[field(record, k.into())?]))),
            Question::Locations(count) => written(&with_locations(table()?, count), LENT, record),
            Question::Tasks(count) => written(&Table { task_count: count.into(), ..table()? }, LENT, record),
            Question::Least(queue, window) => ticks_words(least(&table()?, queue.into(), window.into())),
            Question::Most(queue, window) => ticks_words(most(&table()?, queue.into(), window.into())),
            Question::Cycle(queue) => cycle_words(&table()?, queue.into()),
            Question::Fill(queue, room) => Ok(filled(&table()?, queue.into(), room as usize, 0)),
            Question::FillLate(queue, room) => Ok(filled(&table()?, queue.into(), room as usize, LATE)),
            Question::Demand(queue, window) => ticks_words(demand(&table()?, queue.into(), window.into())),
            Question::Verdict(queue) => verdict_words(&table()?, queue.into()),
            Question::Wait(queue, ticks) => ticks_words(wait(&table()?, queue.into(), ticks.into())),
            Question::Every(count, state, ref ticks) => {
                Ok(every(&with_locations(table()?, count), state, ticks))
            }
            Question::Fresh(ref ticks) => fresh_words(&table()?, ticks),
            Question::Given(state, ref ticks) => Ok(run(&table()?, state, ticks)),
        }
    }
}

fn with_locations(table: Table, count: u16) -> Table {
    Table { location_count: count.into(), ..table }
}

/// `accepted written` where the writer gives the record's own bytes and leaves those past it.
fn written(table: &Table, room: u16, record: &[u8]) -> Result<String, Refusal> {
    let mut out = vec![FILLED; room.into()];
    let length = write(table, &mut out)?;
    let same = out[..length] == *record && out[length..].iter().all(|&byte| byte == FILLED);
    Ok(if same { "accepted written".into() } else { "accepted".into() })
}

/// The lent entries from `from` on, after the filling or as they stay beside its refusal.
fn filled(table: &Table, queue: u64, room: usize, from: usize) -> String {
    let mut out = vec![u32::from(FILLED); room];
    let refusal = fill(table, queue, &mut out).err().map(|refusal| refusal.to_string());
    let entries = out[from..].iter().map(u32::to_string);
    let words: Vec<String> = refusal.into_iter().chain(entries).collect();
    words.join(" ")
}

/// The words of every question about a table.
fn every(table: &Table, state: State, ticks: &[Tick]) -> String {
    let (queue, amount) = (0, BEYOND);
    let words = [
        ticks_words(least(table, queue, amount)),
        ticks_words(most(table, queue, amount)),
        cycle_words(table, queue),
        Ok(filled(table, queue, 0, 0)),
        ticks_words(demand(table, queue, amount)),
        verdict_words(table, queue),
        ticks_words(wait(table, queue, amount)),
        fresh_words(table, ticks),
        Ok(run(table, state, ticks)),
    ];
    words.map(|words| words.unwrap_or_else(|refusal| refusal.to_string())).join(" ")
}

fn ticks_words(ticks: Result<u64, Refusal>) -> Result<String, Refusal> {
    ticks.map(|ticks| ticks.to_string())
}

fn verdict_words(table: &Table, queue: u64) -> Result<String, Refusal> {
    verdict(table, queue).map(|verdict| verdict.to_string())
}

fn fresh_words(table: &Table, ticks: &[Tick]) -> Result<String, Refusal> {
    State::fresh(table).map(|state| run(table, state, ticks))
}

fn cycle_words(table: &Table, queue: u64) -> Result<String, Refusal> {
    cycle(table, queue).map(|(least, most)| format!("{least} {most}"))
}

/// Each step's words, and then the state.
fn run(table: &Table, mut state: State, ticks: &[Tick]) -> String {
    let mut words = Vec::new();
    for &(values, released) in ticks {
        match state.step(table, values, released) {
            Ok(step) => {
                state = step.state;
                words.push(step_words(&step));
            }
            Err(refusal) => words.push(refusal.to_string()),
        }
    }
    words.push(state_words(&state));
    words.join(", ")
}

fn step_words(step: &Step) -> String {
    let task = step.task.map_or("-".into(), |task| task.to_string());
    format!("{} {task} {}", step.queue, step.late)
}

/// Location and done, and each job that is not all zeros.
fn state_words(state: &State) -> String {
    let mut words = format!("at {} {}", state.location, state.done);
    for (i, job) in state.jobs.iter().enumerate() {
        if *job != Job::default() {
            words += &format!(" job {i} {} {} {}", job.since, job.remaining, job.left);
        }
    }
    words
}

fn tick_bytes((values, released): &Tick) -> Vec<u8> {
    let values = values.iter().flat_map(|value| value.to_be_bytes());
    values.chain(released.to_be_bytes()).collect()
}

fn state_bytes(state: &State) -> Vec<u8> {
    let mut bytes = vec![u8::try_from(state.location).expect("a location of 8 bits")];
    bytes.extend(bytes16(state.done));
    for job in state.jobs {
        bytes.extend([job.since, job.remaining, job.left].into_iter().flat_map(bytes16));
    }
    bytes
}

fn bytes16(number: u32) -> [u8; 2] {
    u16::try_from(number).expect("a number of 16 bits").to_be_bytes()
}

/// Each byte as a decimal number after a blank.
pub fn decimals(bytes: &[u8]) -> String {
    bytes.iter().map(|byte| format!(" {byte}")).collect()
}
