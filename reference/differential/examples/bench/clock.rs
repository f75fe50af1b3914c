//! The CPU time of this thread, on Linux: unlike the time on the wall it does
//! not run while other programs have the machine.

use std::time::Duration;

/// What 64-bit Linux calls `struct timespec`.
#[repr(C)]
struct Timespec {
    seconds: i64,
    nanoseconds: i64,
}

const CLOCK_THREAD_CPUTIME_ID: i32 = 3;

unsafe extern "C" {
    fn clock_gettime(clock: i32, time: *mut Timespec) -> i32;
}

pub fn now() -> Duration {
    let mut time = Timespec {
        seconds: 0,
        nanoseconds: 0,
    };
    // SAFETY: the pointer is that of a timespec, which the call fills.
    let failed = unsafe { clock_gettime(CLOCK_THREAD_CPUTIME_ID, &raw mut time) };
    assert_eq!(failed, 0, "no clock of the thread's CPU time");
    Duration::new(time.seconds as u64, time.nanoseconds as u32)
}
