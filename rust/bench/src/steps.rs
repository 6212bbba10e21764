//! A plain step, with the judge of this program.

use crate::judge::{child, is_well_formed};
use domvurtesz::{Job, State, Step, Table, Task};

/// Nothing where the step is refused.
pub fn step(state: &State, table: &Table, values: &[u16; 8], released: u32) -> Option<Step> {
    if !is_well_formed(table) || !is_lawful(state, table) || is_early(state, table, released) {
        return None;
    }
    let mut next = *state;
    let queue = table.location[usize::from(state.location)].queue;
    release(&mut next.jobs, table.counted_tasks(), released);
    let served = serve(&mut next.jobs, table.counted_tasks(), queue);
    let late = pass_time(&mut next.jobs, table.counted_tasks());
    move_on(&mut next, table, values);
    Some(Step { state: next, queue, served, late })
}

fn is_lawful(state: &State, table: &Table) -> bool {
    let Some(location) = table.counted_locations().get(usize::from(state.location)) else {
        return false;
    };
    let (counted, past) = state.jobs.split_at(table.tasks);
    state.done < location.ticks
        && counted.iter().zip(table.counted_tasks()).all(|(job, task)| is_lawful_job(job, task))
        && past.iter().all(|job| *job == Job::default())
}

fn is_lawful_job(job: &Job, task: &Task) -> bool {
    let idle = job.remaining == 0 && job.left == 0;
    let open = (1..=task.work).contains(&job.remaining)
        && job.left >= 1
        && u32::from(job.since) + u32::from(job.left) == u32::from(task.deadline);
    job.since <= task.gap && (idle || open)
}

fn is_early(state: &State, table: &Table, released: u32) -> bool {
    (0..Table::TASKS).any(|i| {
        let early = i >= table.tasks || state.jobs[i].since < table.task[i].gap;
        released >> i & 1 == 1 && early
    })
}

fn release(jobs: &mut [Job], tasks: &[Task], released: u32) {
    for (i, (job, task)) in jobs.iter_mut().zip(tasks).enumerate() {
        if released >> i & 1 == 1 {
            *job = Job { since: 0, remaining: task.work, left: task.deadline };
        }
    }
}

fn serve(jobs: &mut [Job], tasks: &[Task], queue: u8) -> Option<usize> {
    let waits = |&i: &usize| tasks[i].queue == queue && jobs[i].remaining > 0;
    let served = (0..tasks.len()).filter(waits).min_by_key(|&i| jobs[i].left)?;
    jobs[served].remaining -= 1;
    Some(served)
}

fn pass_time(jobs: &mut [Job], tasks: &[Task]) -> u32 {
    let mut late = 0;
    for (i, (job, task)) in jobs.iter_mut().zip(tasks).enumerate() {
        job.since = task.gap.min(job.since.saturating_add(1));
        job.left = if job.remaining == 0 { 0 } else { job.left - 1 };
        if job.remaining > 0 && job.left == 0 {
            late |= 1 << i;
            job.remaining = 0;
        }
    }
    late
}

fn move_on(state: &mut State, table: &Table, values: &[u16; 8]) {
    let v = usize::from(state.location);
    let location = &table.location[v];
    state.done += 1;
    if state.done == location.ticks {
        let value = values[usize::from(location.variable)];
        state.location = child(table, v, value).unwrap_or(0) as u8;
        state.done = 0;
    }
}
