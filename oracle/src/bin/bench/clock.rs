//! Time, in processor time of the thread.

use crate::rows::Row;
use std::os::raw::{c_int, c_long};

/// So many rounds are taken at a time.
pub const ROUNDS: usize = 9;

/// No further round begins once they have taken so many milliseconds.
const LONG: f64 = 250.0;

/// Makes each side's time the fastest of itself and a few rounds, in which the sides are timed by turns, ours first: other
/// programs on the machine only ever add to a time.
pub fn lower(fastest: &mut [f64], row: &mut Row) {
    let begin = thread();
    for _ in (0..ROUNDS).take_while(|_| thread() - begin < LONG) {
        for (side, fastest) in row.sides.iter_mut().zip(&mut *fastest) {
            let start = thread();
            (side.run)();
            *fastest = fastest.min(thread() - start);
        }
    }
}

pub fn median(mut numbers: Vec<f64>) -> f64 {
    numbers.sort_by(f64::total_cmp);
    numbers[numbers.len() / 2]
}

/// The milliseconds that this thread has run, whatever other programs run.
pub fn thread() -> f64 {
    let mut now = Timespec { seconds: 0, nanoseconds: 0 };
    // SAFETY: `now` is a `struct timespec` of Linux on 64 bits.
    let status = unsafe { clock_gettime(THREAD_CPUTIME, &mut now) };
    assert_eq!(status, 0, "no clock");
    now.seconds as f64 * 1e3 + now.nanoseconds as f64 * 1e-6
}

/// The milliseconds that programs have run which this one has started and which have ended, the system's with them.
pub fn children() -> f64 {
    let zero = Timeval { seconds: 0, microseconds: 0 };
    let mut usage = Usage { times: [zero; 2], others: [0; 14] };
    // SAFETY: `usage` is a `struct rusage` of Linux on 64 bits.
    let status = unsafe { getrusage(CHILDREN, &mut usage) };
    assert_eq!(status, 0, "no times");
    usage.times.iter().map(|time| time.seconds as f64 * 1e3 + time.microseconds as f64 * 1e-3).sum()
}

#[repr(C)]
struct Timespec {
    seconds: c_long,
    nanoseconds: c_long,
}

const THREAD_CPUTIME: c_int = 3;

/// The times of the programs and of the system, then other numbers.
#[repr(C)]
struct Usage {
    times: [Timeval; 2],
    others: [c_long; 14],
}

#[repr(C)]
#[derive(Clone, Copy)]
struct Timeval {
    seconds: c_long,
    microseconds: c_long,
}

const CHILDREN: c_int = -1;

extern "C" {
    fn clock_gettime(clock: c_int, now: *mut Timespec) -> c_int;
    fn getrusage(who: c_int, usage: *mut Usage) -> c_int;
}
