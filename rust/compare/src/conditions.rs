//! Tables in any condition: every question refuses them alike, or answers alike where they are well formed.

use domvurtesz::State;
use lister::Table;
use lister::runs::Side;

use crate::both::{self, Both};
use crate::random::Random;
use crate::tally::{Difference, Tally};
use crate::{damage, steps, tables};

/// Of so many tables only the judge is asked, then all questions of one.
const JUDGED: usize = 12;

pub fn tables(random: &mut Random, tally: &mut Tally) -> Result<(), Difference> {
    for _ in 0..JUDGED {
        let table = if random.one_in(10) { tables::full(random) } else { tables::small(random) };
        both::about(&changed(random, table), tally, |both| both.judge())?;
    }
    if random.one_in(50) {
        both::about(&tables::too_long(random), tally, |both| both.judge())?;
    }
    let table = tables::small(random);
    both::about(&changed(random, table), tally, |both| every_question(both, random))
}

/// The table with some numbers changed, in what counts and past it; or any numbers everywhere.
fn changed(random: &mut Random, mut table: Table) -> Table {
    if random.one_in(6) {
        return damage::scrambled(random);
    }
    if random.one_in(2) {
        damage::litter_past(random, &mut table);
    }
    for _ in 0..random.below(3) {
        damage::nudge(random, &mut table);
    }
    table
}

fn every_question(both: &mut Both, random: &mut Random) -> Result<(), Difference> {
    let queue = random.pick(&[0, 1, 1, 2, 17, 257, 65_537, u32::MAX]);
    let window = random.pick(&[0, 7, 2_000_000, 2_000_001, u32::MAX]);
    let ticks = random.pick(&[0, 1, 3, 65_536, u32::MAX]);
    both.judge()?;
    both.write(random.pick(&[0, 40, 2_000]))?;
    both.bound(Side::Least, queue, window)?;
    both.bound(Side::Most, queue, window)?;
    both.cycle(queue)?;
    both.fill(queue, random.pick(&[0, 7, 2_048]))?;
    both.demand(queue, window)?;
    both.verdict(queue)?;
    both.wait(queue, ticks)?;
    let fresh = both.fresh()?;
    for state in [fresh, steps::any(random), State::default()] {
        both.step(state, [(); 8].map(|()| random.any() as u16), random.any() as u32 & 7)?;
    }
    Ok(())
}
