//! Compares the proved library with the lister, which shares no code with it, and holds the runner to the
//! verdict's promise by search. Run `tools/static-library` first.

mod both;
mod conditions;
mod damage;
mod expected;
mod promise;
mod random;
mod records;
mod steps;
mod tables;
mod tally;
mod tasks;
mod trees;
mod windows;

use std::process::ExitCode;
use std::thread;
use std::time::Instant;

use random::Random;
use tally::{Difference, Tally};

const HELP: &str = "\
compare [SEED [TIMES]]

Asks the library and the lister the same random questions. Another SEED than 1 asks others, TIMES asks so many
times as many. Exit status: 0 no difference, 1 a difference or a kind of refusal never seen, 2 not understood.
";

/// One part of the comparing, done so many times.
type Part = (&'static str, u64, fn(&mut Random, &mut Tally) -> Result<(), Difference>);

const PARTS: [Part; 6] = [
    ("records", 1_900, records::table),
    ("conditions", 1_200, conditions::tables),
    ("windows", 1_500, windows::small),
    ("limits", 3, windows::full),
    ("steps", 450, steps::table),
    ("promise", 2_000, promise::table),
];

fn main() -> ExitCode {
    let words: Vec<String> = std::env::args().skip(1).collect();
    if words == ["--help"] {
        print!("{HELP}");
        return ExitCode::SUCCESS;
    }
    let numbers: Result<Vec<u64>, _> = words.iter().map(|word| word.parse()).collect();
    let (seed, times) = match numbers.as_deref() {
        Ok([]) => (1, 1),
        Ok(&[seed]) => (seed, 1),
        Ok(&[seed, times]) => (seed, times),
        _ => {
            eprint!("{HELP}");
            return ExitCode::from(2);
        }
    };
    println!("seed {seed}, times {times}");
    report(compare(seed, times))
}

/// Each part has a thread and random numbers of its own.
fn compare(seed: u64, times: u64) -> Result<Tally, Difference> {
    thread::scope(|scope| {
        let start = |(i, part)| scope.spawn(move || one_part(part, seed.wrapping_add(i), times));
        let parts: Vec<_> = (0..).zip(PARTS).map(start).collect();
        let mut tally = Tally::default();
        for part in parts {
            tally.add(part.join().expect("no part panics")?);
        }
        Ok(tally)
    })
}

fn one_part((name, count, part): Part, seed: u64, times: u64) -> Result<Tally, Difference> {
    let (mut random, mut tally) = (Random::new(seed), Tally::default());
    let began = Instant::now();
    for _ in 0..count * times {
        part(&mut random, &mut tally)?;
    }
    println!("{name:12} {:6.1} s", began.elapsed().as_secs_f64());
    Ok(tally)
}

fn report(compared: Result<Tally, Difference>) -> ExitCode {
    let tally = match compared {
        Ok(tally) => tally,
        Err(difference) => {
            println!("difference in {difference}");
            return ExitCode::FAILURE;
        }
    };
    println!("\n{tally}");
    let unseen = tally.unseen();
    if unseen.is_empty() {
        println!("no difference");
        return ExitCode::SUCCESS;
    }
    println!("no difference, but these refusals were never seen: {}", unseen.join(" "));
    ExitCode::FAILURE
}
