//! One bound, verdict and wait over the filling by corners: the verdict looks at blocks of windows, each from
//! the next deadline on.

use crate::corners;
use crate::judge::is_well_formed;
use domvurtesz::{Table, Verdict};

const LONGEST_FILLING: usize = 2 * Table::PERIOD as usize;

/// The least of one queue for windows without an upper end.
struct Supply {
    filling: [u32; LONGEST_FILLING],
    cycle: u32,
    period: u32,
}

impl Supply {
    /// Nothing for a table that is not well formed.
    fn of(table: &Table, queue: u8) -> Option<Supply> {
        if !is_well_formed(table) {
            return None;
        }
        let mut filling = [0; LONGEST_FILLING];
        let cycle = corners::fill(table, queue, &mut filling);
        Some(Supply { filling, cycle, period: table.period.into() })
    }

    /// By the law of the period from 2P on.
    fn at(&self, window: u32) -> u32 {
        let cycles = (window / self.period).saturating_sub(1);
        self.filling[(window - cycles * self.period) as usize] + cycles * self.cycle
    }
}

pub fn least(table: &Table, queue: u8, window: u32) -> Option<u32> {
    Some(Supply::of(table, queue)?.at(window))
}

pub fn wait(table: &Table, queue: u8, ticks: u32) -> Option<u32> {
    let supply = Supply::of(table, queue)?;
    if supply.cycle == 0 {
        return None;
    }
    // From one period on, a period more is the wait for a cycle least more.
    let within = supply.filling[supply.period as usize];
    let cycles = ticks.saturating_sub(within + 1) / supply.cycle;
    let left = ticks - cycles * supply.cycle;
    let near = (0..2 * supply.period).find(|&window| supply.at(window) >= left).unwrap_or(2 * supply.period);
    Some(near + cycles * supply.period)
}

pub fn verdict(table: &Table, queue: u8) -> Option<Verdict> {
    let supply = Supply::of(table, queue)?;
    let multiple = common_multiple(table, queue)?;
    let mut own = Deadlines::of(table, queue);
    let (mut demand, mut start) = (0, 1);
    while start <= multiple {
        let (block, next) = own.pass(start);
        for (window, work) in (start..).zip(block).filter(|&(_, work)| work != 0) {
            demand += work;
            let supply = supply.at(window);
            if demand > supply {
                return Some(Verdict::Short { window, demand, supply });
            }
        }
        start = next;
    }
    Some(Verdict::Meets)
}

/// So many windows are looked at together.
const BLOCK: usize = 64;

/// The next deadline, the gap and the work of each of a queue's own tasks.
struct Deadlines {
    count: usize,
    tasks: [(u32, u32, u32); Table::TASKS],
}

impl Deadlines {
    fn of(table: &Table, queue: u8) -> Deadlines {
        let mut own = Deadlines { count: 0, tasks: [(0, 0, 0); Table::TASKS] };
        for task in table.counted_tasks().iter().filter(|task| task.queue == queue) {
            own.tasks[own.count] = (task.deadline.into(), task.gap.into(), task.work.into());
            own.count += 1;
        }
        own
    }

    /// The work that is due in each window of the block that begins at `start`, and the next deadline after it.
    fn pass(&mut self, start: u32) -> ([u32; BLOCK], u32) {
        let mut block = [0; BLOCK];
        let mut next = u32::MAX;
        for (due, gap, work) in &mut self.tasks[..self.count] {
            while *due < start + BLOCK as u32 {
                block[(*due - start) as usize] += *work;
                *due += *gap;
            }
            next = next.min(*due);
        }
        (block, next)
    }
}

/// Of the period and the gaps of the queue's tasks; nothing where it is above 1,000,000.
fn common_multiple(table: &Table, queue: u8) -> Option<u32> {
    let mut multiple = u32::from(table.period);
    for task in table.counted_tasks().iter().filter(|task| task.queue == queue) {
        let gap = u32::from(task.gap);
        multiple = (multiple / common_divisor(multiple, gap)).checked_mul(gap)?;
        if multiple > 1_000_000 {
            return None;
        }
    }
    Some(multiple)
}

fn common_divisor(a: u32, b: u32) -> u32 {
    if b == 0 { a } else { common_divisor(b, a % b) }
}
