//! A well-formed table as text: the tree with each branch below the values that lead to it, then the tasks.

use domvurtesz::{Location, Table, Task};

const INDENT: &str = "  ";

pub fn shown(table: &Table) -> String {
    let counts = [
        counted(table.locations, "location"),
        counted(table.queues.into(), "queue"),
        format!("P {}", table.period),
        counted(table.tasks, "task"),
    ];
    let mut lines = vec![counts.join(", "), String::new()];
    branch(table, 0, "", &mut lines);
    if table.tasks > 0 {
        lines.push(String::new());
    }
    lines.extend(table.counted_tasks().iter().enumerate().map(task));
    lines.join("\n") + "\n"
}

/// Location `v` and all below it. What follows for every value stands straight below.
fn branch(table: &Table, v: usize, indent: &str, lines: &mut Vec<String>) {
    let Location { queue, ticks, variable, .. } = table.location[v];
    let sender = if queue == 0 { "nobody".into() } else { format!("queue {queue}") };
    lines.push(format!("{indent}location {v}: {sender}, {}", counted(ticks.into(), "tick")));
    let children = children(table, v);
    if let ([child], 0) = (&children[..], variable) {
        return branch(table, *child, indent, lines);
    }
    for child in children {
        let Location { low, high, .. } = table.location[child];
        lines.push(format!("{indent}variable {variable} is {low}..{high}:"));
        branch(table, child, &format!("{indent}{INDENT}"), lines);
    }
}

/// By their guards from the lowest value on.
fn children(table: &Table, v: usize) -> Vec<usize> {
    let is_child = |u: &usize| usize::from(table.location[*u].parent) == v;
    let mut children: Vec<usize> = (1..table.locations).filter(is_child).collect();
    children.sort_by_key(|&u| table.location[u].low);
    children
}

fn task((i, task): (usize, &Task)) -> String {
    let Task { queue, work, deadline, gap } = task;
    format!("task {i}: queue {queue}, C {work}, D {deadline}, T {gap}")
}

fn counted(count: usize, thing: &str) -> String {
    if count == 1 { format!("1 {thing}") } else { format!("{count} {thing}s") }
}
