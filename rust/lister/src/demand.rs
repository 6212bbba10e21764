//! Demand, verdict and wait (docs/RULES.md, Demand, verdict and wait).

use crate::bounds::Supply;
use crate::judge::{judge_queue, judge_window};
use crate::refusal::{AMOUNT, HORIZON, NEVER, Refusal, refuse_if};
use crate::runs::Side;
use crate::table::{Table, Task};

const FURTHEST_MULTIPLE: u64 = 1_000_000;
const LONGEST_MESSAGE: u64 = 65_535;

/// The answer of a verdict that is not refused.
#[derive(Clone, Copy, Debug, PartialEq, Eq)]
pub enum Verdict {
    Meets,
    Short { window: u64, demand: u64, supply: u64 },
}

pub fn demand(table: &Table, queue: u64, window: u64) -> Result<u64, Refusal> {
    let queue = judge_window(table, queue, window)?;
    Ok(demand_of(&tasks_of(table, queue), window))
}

pub fn verdict(table: &Table, queue: u64) -> Result<Verdict, Refusal> {
    let queue = judge_queue(table, queue)?;
    let tasks = tasks_of(table, queue);
    let multiple = common_multiple(table.period, &tasks)?;
    let supply = Supply::new(table, queue, Side::Least);
    // Beyond this end nothing new appears: over one multiple, demand and least each grow by a fixed amount.
    let end = multiple + u64::from(table.period);
    Ok(first_short(&tasks, &supply, end).unwrap_or(Verdict::Meets))
}

/// The smallest window that is sure to hold `ticks` of the queue's ticks.
pub fn wait(table: &Table, queue: u64, ticks: u64) -> Result<u64, Refusal> {
    let queue = judge_queue(table, queue)?;
    refuse_if(ticks == 0 || ticks > LONGEST_MESSAGE, AMOUNT, 0)?;
    let supply = Supply::new(table, queue, Side::Least);
    refuse_if(supply.cycle == 0, NEVER, 0)?;
    let mut window = 0;
    while supply.at(window) < ticks {
        window += 1;
    }
    Ok(window)
}

/// The tasks of one queue.
pub fn tasks_of(table: &Table, queue: u8) -> Vec<Task> {
    let tasks = table.tasks().iter().copied();
    tasks.filter(|task| task.queue == queue).collect()
}

/// The smallest window from 1 to `end` whose demand is above the supply.
pub fn first_short(tasks: &[Task], supply: &Supply, end: u64) -> Option<Verdict> {
    for window in 1..=end {
        let demand = demand_of(tasks, window);
        let supply = supply.at(window);
        if demand > supply {
            return Some(Verdict::Short { window, demand, supply });
        }
    }
    None
}

fn demand_of(tasks: &[Task], window: u64) -> u64 {
    tasks.iter().map(|task| due(task, window)).sum()
}

/// The work of one task that can be released and be due within the window.
fn due(task: &Task, window: u64) -> u64 {
    let deadline = u64::from(task.deadline);
    if window < deadline {
        return 0;
    }
    u64::from(task.work) * ((window - deadline) / u64::from(task.gap) + 1)
}

/// Stops once the limit is passed: a multiple of thirty-two gaps may be too large for any number.
fn common_multiple(period: u16, tasks: &[Task]) -> Result<u64, Refusal> {
    let mut multiple = u64::from(period);
    for task in tasks {
        let gap = u64::from(task.gap);
        multiple = multiple / common_divisor(multiple, gap) * gap;
        refuse_if(multiple > FURTHEST_MULTIPLE, HORIZON, 0)?;
    }
    Ok(multiple)
}

fn common_divisor(a: u64, b: u64) -> u64 {
    if b == 0 { a } else { common_divisor(b, a % b) }
}
