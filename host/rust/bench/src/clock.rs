//! The processor time of this thread: unlike the time of day it does not count what other programs of a shared machine take.

/// C's `struct timespec` on x86-64 Linux.
#[repr(C)]
struct Time {
    seconds: i64,
    nanoseconds: i64,
}

/// Linux's CLOCK_THREAD_CPUTIME_ID.
const THREAD: i32 = 3;

extern "C" {
    fn clock_gettime(clock: i32, time: *mut Time) -> i32;
}

/// Nanoseconds since the thread began.
pub fn now() -> f64 {
    let mut time = Time {
        seconds: 0,
        nanoseconds: 0,
    };
    // SAFETY: writes one `struct timespec` to a valid place.
    let failed = unsafe { clock_gettime(THREAD, &mut time) };
    assert!(failed == 0, "no clock of the thread's processor time");
    time.seconds as f64 * 1e9 + time.nanoseconds as f64
}
