//! Random well-formed tables, the same ones in every run of the tests.

use lister::{Location, Table, Task, judge};

use crate::samples::{FULL, location, table};

/// A xorshift generator.
pub struct Random(u64);

impl Random {
    pub fn new(seed: u64) -> Random {
        Random(seed)
    }

    /// A number from 0 to `end` - 1.
    pub fn below(&mut self, end: u64) -> u64 {
        self.0 ^= self.0 << 13;
        self.0 ^= self.0 >> 7;
        self.0 ^= self.0 << 17;
        (self.0 >> 16) % end
    }

    /// A number from 1 to `end`.
    fn up_to(&mut self, end: u16) -> u16 {
        1 + self.below(end.into()) as u16
    }

    /// A tree with at most `most` locations, and some tasks with gaps up to `gap`.
    pub fn table(&mut self, period: u16, most: usize, tasks: u64, gap: u16) -> Table {
        let queues = self.up_to(3) as u8;
        let locations = self.tree(queues, period, most);
        let tasks: Vec<Task> = (0..self.below(tasks + 1)).map(|_| self.task(queues, gap)).collect();
        let table = table(queues, period, &locations, &tasks);
        assert_eq!(judge(&table), Ok(()));
        table
    }

    fn task(&mut self, queues: u8, gap: u16) -> Task {
        let gap = self.up_to(gap);
        let deadline = self.up_to(gap);
        Task { queue: self.up_to(queues.into()) as u8, work: self.up_to(deadline), deadline, gap }
    }

    fn tree(&mut self, queues: u8, period: u16, most: usize) -> Vec<Location> {
        let ticks = if most == 1 { period } else { self.up_to(period) };
        let mut tree = vec![location(0, self.queue(queues), ticks, FULL)];
        // Locations whose path is short of the period, with the ticks that are missing. Each needs a child.
        let mut open = vec![(0, period - ticks)];
        open.retain(|&(_, missing)| missing > 0);
        while !open.is_empty() {
            let (parent, missing) = open.swap_remove(self.below(open.len() as u64) as usize);
            let room = most - tree.len() - open.len();
            let guards = self.guards(room.min(3));
            let mut spare = room - guards.len();
            tree[parent].variable = self.below(8) as u8;
            for guard in guards {
                let ticks = if spare > 0 { self.up_to(missing) } else { missing };
                if ticks < missing {
                    open.push((tree.len(), missing - ticks));
                    spare -= 1;
                }
                tree.push(location(parent as u8, self.queue(queues), ticks, guard));
            }
        }
        tree
    }

    fn queue(&mut self, queues: u8) -> u8 {
        self.below(u64::from(queues) + 1) as u8
    }

    /// All values parted into at most `most` guards, in any order.
    fn guards(&mut self, most: usize) -> Vec<(u16, u16)> {
        let mut guards = vec![FULL];
        for _ in 0..self.below(most as u64) {
            let (low, high) = guards.swap_remove(self.below(guards.len() as u64) as usize);
            let cut = low + self.below(u64::from(high - low) + 1) as u16;
            guards.push((low, cut));
            if cut < high {
                guards.push((cut + 1, high));
            }
        }
        guards
    }
}
