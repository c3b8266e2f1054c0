//! The processor time of this thread, which no other program on the machine adds to.

use std::time::Duration;

#[repr(C)]
struct Time {
    seconds: i64,
    nanoseconds: i64,
}

/// Linux's number of the clock.
const THREAD_PROCESSOR_TIME: i32 = 3;

unsafe extern "C" {
    fn clock_gettime(clock: i32, time: *mut Time) -> i32;
}

pub fn processor_time() -> Duration {
    let mut time = Time { seconds: 0, nanoseconds: 0 };
    // SAFETY: `time` is laid out as C's `timespec` is on Linux with 64 bits.
    let failed = unsafe { clock_gettime(THREAD_PROCESSOR_TIME, &mut time) };
    assert_eq!(failed, 0, "no such clock");
    Duration::new(time.seconds as u64, time.nanoseconds as u32)
}
