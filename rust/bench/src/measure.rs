//! Timing.

use std::hint::black_box;
use std::time::Instant;

/// The number of timed repetitions; the best one counts.
pub const REPETITIONS: usize = 15;

/// The least time in seconds of two calls on the same input, measured in turn after one call of each that is not
/// counted.
pub fn best_of_both<A, B>(first: impl FnMut() -> A, second: impl FnMut() -> B) -> (f64, f64) {
    let begin = Instant::now();
    best_by(|| begin.elapsed().as_secs_f64(), first, second)
}

/// As [`best_of_both`], by the time of the processor: what other programs take of it is not counted.
pub fn best_of_both_by_processor<A, B>(
    first: impl FnMut() -> A,
    second: impl FnMut() -> B,
) -> (f64, f64) {
    best_by(processor_time, first, second)
}

/// As [`best_of_both`], by a clock in seconds.
fn best_by<A, B>(
    clock: impl Fn() -> f64,
    mut first: impl FnMut() -> A,
    mut second: impl FnMut() -> B,
) -> (f64, f64) {
    black_box(first());
    black_box(second());
    let (mut best_first, mut best_second) = (f64::INFINITY, f64::INFINITY);
    for _ in 0..REPETITIONS {
        let start = clock();
        black_box(first());
        best_first = best_first.min(clock() - start);
        let start = clock();
        black_box(second());
        best_second = best_second.min(clock() - start);
    }
    (best_first, best_second)
}

/// C's `struct timespec` of 64-bit Linux.
#[repr(C)]
struct Timespec {
    seconds: i64,
    nanoseconds: i64,
}

/// The clock of a process on Linux, `CLOCK_PROCESS_CPUTIME_ID`.
const PROCESS_CLOCK: i32 = 2;

extern "C" {
    fn clock_gettime(clock: i32, time: *mut Timespec) -> i32;
}

/// The time in seconds that the processor has worked for this process.
pub fn processor_time() -> f64 {
    let mut time = Timespec {
        seconds: 0,
        nanoseconds: 0,
    };
    // SAFETY: the call writes to `time` only, which is laid out as it says.
    let failed = unsafe { clock_gettime(PROCESS_CLOCK, &mut time) };
    assert_eq!(failed, 0, "the process has a clock");
    time.seconds as f64 + 1e-9 * time.nanoseconds as f64
}

/// The least time in seconds of up to `most` calls. The first call is always made; a further one only if a call as long
/// as the least so far ends within `budget` seconds.
pub fn least_within<A>(most: usize, budget: f64, mut call: impl FnMut() -> A) -> f64 {
    let begin = Instant::now();
    let mut least = f64::INFINITY;
    for number in 0..most {
        if number > 0 && begin.elapsed().as_secs_f64() + least > budget {
            break;
        }
        let start = Instant::now();
        black_box(call());
        least = least.min(start.elapsed().as_secs_f64());
    }
    least
}
