//! The stack that a call takes, by painting: the stack below the caller is filled with one pattern, and after
//! the call the lowest place where the pattern is gone is looked for.

use std::hint::black_box;
use std::thread::Builder;

const STACK: usize = 1 << 20;
/// How much of it is painted: the thread's own frames lie above.
const PAINTED: usize = STACK / 2;
/// What the painter itself stands on is not painted.
const MARGIN: usize = 512;
const PAINT: u64 = 0xA5A5_A5A5_A5A5_A5A5;

/// The bytes of stack below the frame that makes the call, to the next word of the pattern.
pub fn stack_of<A>(call: impl Fn() -> A + Sync) -> usize {
    let call = || {
        black_box(call());
    };
    std::thread::scope(|scope| {
        let thread = Builder::new().stack_size(STACK).spawn_scoped(scope, || depth(&call));
        thread.expect("a thread starts").join().expect("the call returns")
    })
}

#[inline(never)]
fn depth(call: &dyn Fn()) -> usize {
    let here = 0_u64;
    let top = (&raw const here).addr() / 8 * 8;
    let lowest = top - PAINTED;
    for place in (lowest..top - MARGIN).step_by(8) {
        // SAFETY: the place lies in this thread's stack, below every frame in use.
        unsafe { std::ptr::with_exposed_provenance_mut::<u64>(place).write_volatile(PAINT) };
    }
    black_box(call)();
    let kept = |place: &usize| {
        // SAFETY: the place lies in this thread's stack and was painted.
        unsafe { std::ptr::with_exposed_provenance::<u64>(*place).read_volatile() == PAINT }
    };
    top - (lowest..top - MARGIN).step_by(8).find(|place| !kept(place)).unwrap_or(top - MARGIN)
}
