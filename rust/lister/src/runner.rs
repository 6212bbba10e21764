//! The runner: its state, which states are lawful, one step by the four rules (docs/RULES.md, The runner).

use crate::judge::judge;
use crate::refusal::{EARLY, Refusal, STATE, refuse_if};
use crate::table::{Table, Task};

/// A state in any condition: the numbers are wider than any lawful one.
#[derive(Clone, Copy, Debug, PartialEq, Eq, Hash)]
pub struct State {
    pub location: u32,
    pub done: u32,
    pub jobs: [Job; Table::TASKS],
}

/// What the runner knows of one task.
#[derive(Clone, Copy, Debug, Default, PartialEq, Eq, Hash)]
pub struct Job {
    pub since: u32,
    pub remaining: u32,
    pub left: u32,
}

/// The answer of a step that is not refused.
#[derive(Clone, Copy, Debug, PartialEq, Eq)]
pub struct Step {
    pub state: State,
    pub queue: u8,
    pub task: Option<usize>,
    pub late: u32,
}

impl State {
    pub fn fresh(table: &Table) -> Result<State, Refusal> {
        judge(table)?;
        let mut jobs = [Job::default(); Table::TASKS];
        for (job, task) in jobs.iter_mut().zip(table.tasks()) {
            job.since = task.gap.into();
        }
        Ok(State { location: 0, done: 0, jobs })
    }

    /// A refused step leaves the caller with the state that it has.
    pub fn step(&self, table: &Table, values: [u16; 8], released: u32) -> Result<Step, Refusal> {
        judge(table)?;
        refuse_if(!self.is_lawful(table), STATE, 0)?;
        if let Some(task) = self.first_early(table, released) {
            return Err(Refusal { number: EARLY, place: task });
        }
        let mut state = *self;
        let queue = table.locations[state.location as usize].queue;
        state.release(table, released);
        let task = state.serve(table, queue);
        let late = state.pass_time(table);
        state.move_on(table, values);
        Ok(Step { state, queue, task, late })
    }

    /// Asked of a judged table.
    fn is_lawful(&self, table: &Table) -> bool {
        let Some(location) = table.locations().get(self.location as usize) else {
            return false;
        };
        let (counted, past) = self.jobs.split_at(table.task_count);
        self.done < u32::from(location.ticks)
            && counted.iter().zip(table.tasks()).all(|(j, t)| j.is_lawful(t))
            && past.iter().all(|job| *job == Job::default())
    }

    /// The lowest released task that is not in the table, or whose gap is not over.
    fn first_early(&self, table: &Table, released: u32) -> Option<usize> {
        (0..Table::TASKS).find(|&i| {
            let may = i < table.task_count && self.jobs[i].since >= u32::from(table.tasks[i].gap);
            holds(released, i) && !may
        })
    }

    /// Rule 1.
    fn release(&mut self, table: &Table, released: u32) {
        for (i, task) in table.tasks().iter().enumerate() {
            if holds(released, i) {
                self.jobs[i] = Job { since: 0, remaining: task.work.into(), left: task.deadline.into() };
            }
        }
    }

    /// Rule 2. The first of equals is the lowest task.
    fn serve(&mut self, table: &Table, queue: u8) -> Option<usize> {
        let waits = |i: &usize| table.tasks[*i].queue == queue && self.jobs[*i].remaining > 0;
        let waiting = (0..table.task_count).filter(waits);
        let served = waiting.min_by_key(|&i| self.jobs[i].left)?;
        self.jobs[served].remaining -= 1;
        Some(served)
    }

    /// Rule 3. Answers the late set.
    fn pass_time(&mut self, table: &Table) -> u32 {
        let mut late = 0;
        for (i, task) in table.tasks().iter().enumerate() {
            let job = &mut self.jobs[i];
            job.since = (job.since + 1).min(task.gap.into());
            if job.remaining == 0 {
                job.left = 0;
                continue;
            }
            job.left -= 1;
            if job.left == 0 {
                late |= 1 << i;
                job.remaining = 0;
            }
        }
        late
    }

    /// Rule 4. A judged table's guards hold each value once, so one child is found; a leaf has none.
    fn move_on(&mut self, table: &Table, values: [u16; 8]) {
        let v = self.location as usize;
        let location = &table.locations[v];
        self.done += 1;
        if self.done < u32::from(location.ticks) {
            return;
        }
        let value = values[usize::from(location.variable)];
        let holds = |child: &usize| {
            let child = &table.locations[*child];
            child.low <= value && value <= child.high
        };
        let chosen = table.children(v).into_iter().find(holds);
        self.location = chosen.unwrap_or(0) as u32;
        self.done = 0;
    }
}

impl Job {
    fn is_lawful(&self, task: &Task) -> bool {
        let idle = self.remaining == 0 && self.left == 0;
        let due = u64::from(self.since) + u64::from(self.left);
        let waiting = (1..=u32::from(task.work)).contains(&self.remaining)
            && self.left >= 1
            && due == u64::from(task.deadline);
        self.since <= u32::from(task.gap) && (idle || waiting)
    }
}

/// Whether the set holds task `i`.
fn holds(set: u32, i: usize) -> bool {
    set >> i & 1 == 1
}
