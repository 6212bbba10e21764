//! The time of one call on the processor, which other programs do not add to: the best of many batches.

use std::hint::black_box;
use std::time::Duration;

const BATCHES: u32 = 100;
const BATCH: Duration = Duration::from_micros(300);
/// Of calls that are longer than a batch by far.
const FEW_BATCHES: u32 = 7;
const LONG: Duration = Duration::from_millis(10);

/// The time of one call in microseconds.
pub fn time<A>(mut call: impl FnMut() -> A) -> f64 {
    let one = best(&mut call, 3, 1);
    let calls = (BATCH.as_nanos() / one.as_nanos().max(1)).clamp(1, 100) as u32;
    let batches = if one > LONG { FEW_BATCHES } else { BATCHES };
    best(&mut call, batches, calls).as_secs_f64() * 1e6 / f64::from(calls)
}

fn best<A>(call: &mut impl FnMut() -> A, batches: u32, calls: u32) -> Duration {
    (0..batches).map(|_| batch(call, calls)).min().expect("there are batches")
}

fn batch<A>(call: &mut impl FnMut() -> A, calls: u32) -> Duration {
    let began = now();
    for _ in 0..calls {
        black_box(call());
    }
    now() - began
}

/// The time that this thread has had on a processor so far.
fn now() -> Duration {
    let mut time = TimeSpec { seconds: 0, nanoseconds: 0 };
    // SAFETY: the C library fills in the struct, which has its layout.
    unsafe { clock_gettime(THREAD_TIME, &mut time) };
    Duration::new(time.seconds as u64, time.nanoseconds as u32)
}

/// As 64-bit Linux has it.
#[repr(C)]
struct TimeSpec {
    seconds: i64,
    nanoseconds: i64,
}

const THREAD_TIME: i32 = 3;

unsafe extern "C" {
    fn clock_gettime(clock: i32, time: *mut TimeSpec) -> i32;
}
