//! The clock of the calling thread, from the C library of the system (Linux).
#![allow(unsafe_code)]

use std::time::Duration;

/// Seconds and nanoseconds, as the clock gives them.
#[repr(C)]
struct ClockTime {
    seconds: i64,
    nanoseconds: i64,
}

/// The clock that counts the processor time of the calling thread.
const THREAD_CLOCK: i32 = 3;

extern "C" {
    fn clock_gettime(clock: i32, time: *mut ClockTime) -> i32;
}

/// The processor time that this thread has used.
pub fn processor_time() -> Duration {
    let mut time = ClockTime { seconds: 0, nanoseconds: 0 };
    // SAFETY: the pointer is to a value of the layout that the call writes.
    let status = unsafe { clock_gettime(THREAD_CLOCK, &mut time) };
    assert_eq!(status, 0, "the clock of the thread can be read");
    Duration::new(time.seconds as u64, time.nanoseconds as u32)
}
