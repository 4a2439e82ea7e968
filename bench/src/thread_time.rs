//! The time that this thread has spent on a processor: what else the machine does is not in it. The standard library has
//! no clock for it.

use std::time::Duration;

const CLOCK_THREAD_CPUTIME_ID: i32 = 3;

/// C's struct timespec on 64-bit Linux.
#[repr(C)]
struct Timespec {
    seconds: i64,
    nanoseconds: i64,
}

extern "C" {
    fn clock_gettime(clock: i32, time: *mut Timespec) -> i32;
}

#[allow(unsafe_code)]
pub fn now() -> Duration {
    let mut time = Timespec {
        seconds: 0,
        nanoseconds: 0,
    };
    // SAFETY: the pointer is to a timespec of the C library's shape, which the call writes and does not keep.
    let status = unsafe { clock_gettime(CLOCK_THREAD_CPUTIME_ID, &mut time) };
    assert_eq!(status, 0, "the thread has no clock");
    Duration::new(time.seconds as u64, time.nanoseconds as u32)
}
