//! The run that SHORT promises: a window with the least supply, each task of the queue released at its start
//! and then as early as it may be. Every order of service is late in it, the runner's too.

use std::collections::HashSet;

use domvurtesz::{State, Table, Task};

use super::{children, values_to};

/// A location and the number of ticks done there.
type Position = (usize, u16);

/// Nothing where the run is as promised, else what it is not.
pub fn run(table: &Table, queue: u8, window: u32, supply: u32) -> Result<(), &'static str> {
    let Run { positions, start } = Run::of(table, queue, window as usize);
    let grants: Vec<bool> =
        positions[start..].iter().map(|&(v, _)| table.location[v].queue == queue).collect();
    let tasks: Vec<Task> = table.counted_tasks().iter().filter(|task| task.queue == queue).copied().collect();
    if grants.iter().filter(|&&granted| granted).count() != supply as usize {
        return Err("short, and the window has another supply");
    }
    if some_order_is_in_time(&tasks, &grants) {
        return Err("short, and an order of service is in time");
    }
    if runner_is_in_time(table, queue, &positions, start)? {
        return Err("short, and the runner is in time");
    }
    Ok(())
}

/// The position of each tick from the fresh state to the window's end. The window starts at tick `start`.
struct Run {
    positions: Vec<Position>,
    start: usize,
}

impl Run {
    fn of(table: &Table, queue: u8, window: usize) -> Run {
        let worst = Worst::of(table, queue, window);
        let mut at = worst.start(window);
        let mut positions = ticks_before(table, at);
        let start = positions.len();
        for ticks in (0..window).rev() {
            positions.push(at);
            at = worst.next(at, ticks);
        }
        Run { positions, start }
    }
}

/// The shortest way from the root to a position.
fn ticks_before(table: &Table, (v, k): Position) -> Vec<Position> {
    let mut before = Vec::new();
    if v > 0 {
        let parent = usize::from(table.location[v].parent);
        before = ticks_before(table, (parent, table.location[parent].ticks));
    }
    before.extend((0..k).map(|k| (v, k)));
    before
}

/// For each number of ticks and each position the least supply of a window that starts there.
struct Worst<'a> {
    table: &'a Table,
    least: Vec<Vec<Vec<u32>>>,
}

impl Worst<'_> {
    fn of(table: &Table, queue: u8, window: usize) -> Worst<'_> {
        let locations = table.counted_locations();
        let nothing: Vec<Vec<u32>> = locations.iter().map(|l| vec![0; l.ticks.into()]).collect();
        let mut worst = Worst { table, least: vec![nothing] };
        for ticks in 0..window {
            let from = |v: usize, k: u16| {
                let own = u32::from(locations[v].queue == queue);
                own + worst.at(worst.next((v, k), ticks), ticks)
            };
            let row = |v: usize| (0..locations[v].ticks).map(|k| from(v, k)).collect();
            let longer = (0..locations.len()).map(row).collect();
            worst.least.push(longer);
        }
        worst
    }

    fn at(&self, (v, k): Position, ticks: usize) -> u32 {
        self.least[ticks][v][usize::from(k)]
    }

    /// The position after this one from which the next ticks have the least supply.
    fn next(&self, (v, k): Position, ticks: usize) -> Position {
        if k + 1 < self.table.location[v].ticks {
            return (v, k + 1);
        }
        let children = children(self.table, v).into_iter().map(|child| (child, 0));
        children.min_by_key(|&child| self.at(child, ticks)).unwrap_or((0, 0))
    }

    fn start(&self, window: usize) -> Position {
        let locations = self.table.counted_locations().iter().enumerate();
        let positions = locations.flat_map(|(v, l)| (0..l.ticks).map(move |k| (v, k)));
        positions.min_by_key(|&position| self.at(position, window)).expect("there is a root")
    }
}

/// Each granted tick goes to any waiting job or to none. An order that is late is followed no further.
fn some_order_is_in_time(tasks: &[Task], grants: &[bool]) -> bool {
    let mut orders = HashSet::from([vec![0; tasks.len()]]);
    for (tick, &granted) in grants.iter().enumerate() {
        let served =
            orders.into_iter().flat_map(|remaining| choices(released(remaining, tasks, tick), granted));
        orders = served.filter(|remaining| !is_late(remaining, tasks, tick)).collect();
    }
    !orders.is_empty()
}

fn released(mut remaining: Vec<u16>, tasks: &[Task], tick: usize) -> Vec<u16> {
    for (remaining, task) in remaining.iter_mut().zip(tasks) {
        if is_released(task, tick) {
            *remaining = task.work;
        }
    }
    remaining
}

/// At the window's first tick and then whenever the gap is over.
fn is_released(task: &Task, tick: usize) -> bool {
    tick.is_multiple_of(task.gap.into())
}

fn choices(remaining: Vec<u16>, granted: bool) -> Vec<Vec<u16>> {
    let mut choices = vec![remaining.clone()];
    for i in (0..remaining.len()).filter(|&i| granted && remaining[i] > 0) {
        let mut choice = remaining.clone();
        choice[i] -= 1;
        choices.push(choice);
    }
    choices
}

fn is_late(remaining: &[u16], tasks: &[Task], tick: usize) -> bool {
    let is_due = |task: &Task| tick % usize::from(task.gap) + 1 == usize::from(task.deadline);
    remaining.iter().zip(tasks).any(|(&remaining, task)| remaining > 0 && is_due(task))
}

fn runner_is_in_time(
    table: &Table,
    queue: u8,
    positions: &[Position],
    start: usize,
) -> Result<bool, &'static str> {
    let mut state = State::fresh(table).expect("the table is well formed");
    let mut late = 0;
    for (tick, &(v, _)) in positions.iter().enumerate() {
        let next = positions.get(tick + 1).map_or(0, |next| next.0);
        let released = tick.checked_sub(start).map_or(0, |tick| releases(table, queue, tick));
        let step = state.step(table, values_to(table, v, next), released);
        let step = step.map_err(|_| "short, and the runner refuses a step of its run")?;
        state = step.state;
        late |= step.late;
    }
    // Nothing else is released, so that every late job is the queue's.
    Ok(late == 0)
}

/// The tasks of the queue that are released at this tick of the window.
fn releases(table: &Table, queue: u8, tick: usize) -> u32 {
    let tasks = table.counted_tasks().iter().enumerate();
    let now = tasks.filter(|(_, task)| task.queue == queue && is_released(task, tick));
    now.fold(0, |set, (i, _)| set | 1 << i)
}
