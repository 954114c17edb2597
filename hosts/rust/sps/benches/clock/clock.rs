//! The time that this process has had of a processor, which other work on the machine does not
//! lengthen.

use std::time::Duration;

/// `struct timespec` of 64-bit Linux.
#[repr(C)]
struct Timespec {
    seconds: i64,
    nanoseconds: i64,
}

const PROCESS_CPUTIME: i32 = 2;

extern "C" {
    fn clock_gettime(clock: i32, time: *mut Timespec) -> i32;
}

/// The time so far.
pub fn cpu_time() -> Duration {
    let mut time = Timespec { seconds: 0, nanoseconds: 0 };
    // SAFETY: the call writes one timespec, which is lent to it.
    let status = unsafe { clock_gettime(PROCESS_CPUTIME, &mut time) };
    assert_eq!(status, 0, "the machine has a clock of the process");
    Duration::new(time.seconds as u64, time.nanoseconds as u32)
}
