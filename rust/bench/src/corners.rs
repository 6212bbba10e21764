//! The filling by corners: the few windows that decide the least of every window
//! (crates/theory/specs/Points.antt).

use domvurtesz::Table;

const LOCATIONS: usize = Table::LOCATIONS;

/// What the corners are made of, for one queue of a well-formed table.
struct Corners {
    count: usize,
    period: usize,
    parents: [usize; LOCATIONS],
    /// The tick of the cycle at which each location begins, and the one at which it ends.
    begins: [usize; LOCATIONS],
    ends: [usize; LOCATIONS],
    /// The queue's ticks in a cycle before each location, and the least from its start to the cycle's end.
    before: [u32; LOCATIONS],
    rest: [u32; LOCATIONS],
    /// Where a corner may start, and where it may end.
    opens: [bool; LOCATIONS],
    closes: [bool; LOCATIONS],
}

/// Puts least for the windows 0 to 2P - 1 into `out`, and answers the cycle least.
pub fn fill(table: &Table, queue: u8, out: &mut [u32]) -> u32 {
    let corners = Corners::of(table, queue);
    let out = &mut out[..2 * corners.period];
    for (window, entry) in out.iter_mut().enumerate() {
        *entry = window as u32;
    }
    corners.lower_across(out);
    corners.stretch(out);
    corners.lower_within(out);
    for i in (1..out.len()).rev() {
        out[i - 1] = out[i - 1].min(out[i]);
    }
    for i in 1..out.len() {
        out[i] = out[i].min(out[i - 1] + 1);
    }
    corners.rest[0]
}

impl Corners {
    fn of(table: &Table, queue: u8) -> Corners {
        let mut corners = Corners {
            count: table.locations,
            period: table.period.into(),
            parents: table.location.map(|l| l.parent.into()),
            begins: [0; LOCATIONS],
            ends: [0; LOCATIONS],
            before: [0; LOCATIONS],
            rest: [u32::MAX; LOCATIONS],
            opens: [false; LOCATIONS],
            closes: [false; LOCATIONS],
        };
        corners.go_down(table, queue);
        corners.go_up(table, queue);
        corners
    }

    /// Parents come before their children.
    fn go_down(&mut self, table: &Table, queue: u8) {
        for (v, l) in table.counted_locations().iter().enumerate() {
            let parent = self.parents[v];
            let above = &table.location[parent];
            if v > 0 {
                self.begins[v] = self.ends[parent];
                self.before[v] = self.before[parent] + own(above.queue == queue, above.ticks);
            }
            self.ends[v] = self.begins[v] + usize::from(l.ticks);
            self.opens[v] = v == 0 || (l.queue != queue && above.queue == queue);
            self.closes[v] = l.queue != queue && self.ends[v] < self.period;
            if v > 0 && l.queue != queue {
                self.closes[parent] = false;
            }
        }
    }

    /// Children come before their parents.
    fn go_up(&mut self, table: &Table, queue: u8) {
        for (v, l) in table.counted_locations().iter().enumerate().rev() {
            let below = if self.rest[v] == u32::MAX { 0 } else { self.rest[v] };
            self.rest[v] = own(l.queue == queue, l.ticks) + below;
            if v > 0 {
                let parent = self.parents[v];
                self.rest[parent] = self.rest[parent].min(self.rest[v]);
            }
        }
    }

    fn lower_within(&self, out: &mut [u32]) {
        for v in (0..self.count).filter(|&v| self.closes[v]) {
            let mut a = v;
            loop {
                if self.opens[a] {
                    lower(out, self.ends[v] - self.begins[a], self.before[v] - self.before[a]);
                }
                if a == 0 {
                    break;
                }
                a = self.parents[a];
            }
        }
    }

    /// To a cycle's end, and across it to a location that ends before the next.
    fn lower_across(&self, out: &mut [u32]) {
        for a in (0..self.count).filter(|&a| self.opens[a]) {
            let ahead = self.period - self.begins[a];
            lower(out, ahead, self.rest[a]);
            for v in (0..self.count).filter(|&v| self.closes[v]) {
                lower(out, ahead + self.ends[v], self.rest[a] + self.before[v]);
            }
        }
    }

    /// The same with a whole cycle more, from the last entry on, so that each adds to what was there before.
    fn stretch(&self, out: &mut [u32]) {
        for i in (0..out.len()).rev() {
            lower(out, i + self.period, out[i] + self.rest[0]);
        }
    }
}

fn own(is_asked: bool, ticks: u16) -> u32 {
    if is_asked { ticks.into() } else { 0 }
}

/// A corner longer than every window lowers the last.
fn lower(out: &mut [u32], ticks: usize, least: u32) {
    let i = ticks.min(out.len() - 1);
    out[i] = out[i].min(least);
}
