//! Prints the library's times on the largest tables beside those of a plain Rust program of the same means,
//! and the stack that its questions take. Run `tools/static-library` first.

mod clock;
mod corners;
mod cycle;
mod every_window;
mod judge;
mod questions;
mod record;
mod search;
mod shapes;
mod stack;
mod steps;

use domvurtesz::{Table, answers};
use questions::{FILLING, LONGEST_MESSAGE, LONGEST_WINDOW, QUEUE, Times, state};
use shapes::Shape;
use stack::stack_of;

fn main() {
    let shapes = shapes::all();
    print_times(&shapes);
    print_every_window(&shapes[0]);
    print_stack(&shapes);
}

fn print_times(shapes: &[Shape]) {
    println!(
        "Processor time of one call in microseconds, library|plain Rust, judging included, best of many batches."
    );
    println!("P 1,024, 128 locations, 32 tasks, multiple 998,400; dense has a deadline at every tick.");
    println!("A listing asks for cycle and verdict of sixteen queues with two tasks each.");
    print!("{:17}", "");
    shapes.iter().for_each(|(name, _)| print!(" {name:>15}"));
    println!();
    for (name, question) in questions::ALL {
        print!("{name:17}");
        for Times { library, plain } in shapes.iter().map(|(_, table)| question(table)) {
            print!(" {:>7}|{:>7}", microseconds(library), microseconds(plain));
        }
        println!();
    }
}

fn microseconds(time: f64) -> String {
    if time < 1e4 { format!("{time:.1}") } else { format!("{time:.0}") }
}

fn print_every_window((name, table): &Shape) {
    let plain = questions::try_every_window(table);
    println!("\nFilling the {name} by trying every window, plain Rust: {plain:.0} microseconds.");
}

fn print_stack(shapes: &[Shape]) {
    let table = size_of::<Table>();
    println!(
        "\nBytes of stack of one call, the most over these tables; the table by value is {table} of them."
    );
    for (name, measure) in STACK {
        let most = shapes.iter().map(|(_, table)| measure(table)).max().expect("there are shapes");
        println!("{name:17} {most:8}");
    }
}

type Measure = fn(&Table) -> usize;

/// The questions whose stack is measured, with their names.
const STACK: [(&str, Measure); 5] = [
    ("filling", |table| stack_of(|| answers::fill(*table, QUEUE, &mut vec![0; FILLING]))),
    ("least, 2,000,000", |table| stack_of(|| answers::least(*table, QUEUE, LONGEST_WINDOW))),
    ("verdict, sparse", |table| stack_of(|| answers::verdict(*table, QUEUE))),
    ("wait for 65,535", |table| stack_of(|| answers::wait(*table, QUEUE, LONGEST_MESSAGE))),
    ("step", |table| {
        let state = state(table);
        stack_of(|| answers::step(state, *table, &[0; 8], u32::MAX))
    }),
];
