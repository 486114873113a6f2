//! The thread's own CPU time.

use std::hint::black_box;

#[repr(C)]
struct Time {
    seconds: i64,
    nanoseconds: i64,
}

unsafe extern "C" {
    fn clock_gettime(clock: i32, time: *mut Time) -> i32;
}

/// CLOCK_THREAD_CPUTIME_ID of Linux.
const THREAD: i32 = 3;

/// In milliseconds.
fn now() -> f64 {
    let (seconds, nanoseconds) = (0, 0);
    let mut time = Time {
        seconds,
        nanoseconds,
    };
    // The clock writes one time there.
    let failed = unsafe { clock_gettime(THREAD, &mut time) };
    assert_eq!(failed, 0, "no such clock");
    time.seconds as f64 * 1e3 + time.nanoseconds as f64 / 1e6
}

/// What a run takes, in milliseconds, and what it makes.
pub fn timed<T>(run: impl FnOnce() -> T) -> (f64, T) {
    let begun = now();
    let made = black_box(run());
    (now() - begun, made)
}
