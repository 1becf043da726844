//! The processor time of this thread: time that other work on the machine takes is no part of it.

use std::time::Duration;

/// A time as Linux writes it.
#[repr(C)]
struct Time {
    seconds: i64,
    nanoseconds: i64,
}

extern "C" {
    fn clock_gettime(clock: i32, time: *mut Time) -> i32;
}

/// The number of the clock that counts a thread's processor time.
const OF_THREAD: i32 = 3;

/// What this thread has used up to now.
pub fn used() -> Duration {
    let mut time = Time { seconds: 0, nanoseconds: 0 };
    // SAFETY: the C library writes one time, which is lent here.
    let status = unsafe { clock_gettime(OF_THREAD, &mut time) };
    assert_eq!(status, 0, "this system has no clock of a thread");
    Duration::new(time.seconds as u64, time.nanoseconds as u32)
}
