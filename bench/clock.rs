//! The processor time of this thread, which other programs on the machine add less to than to the time of day.

#[repr(C)]
struct Time {
    seconds: i64,
    nanoseconds: i64,
}

extern "C" {
    fn clock_gettime(clock: i32, time: *mut Time) -> i32;
}

/// Linux's number of this clock.
const CLOCK_THREAD_CPUTIME_ID: i32 = 3;

pub fn seconds() -> f64 {
    let mut time = Time { seconds: 0, nanoseconds: 0 };
    // Safe: the C library writes one time, of this layout on 64-bit Linux.
    let failed = unsafe { clock_gettime(CLOCK_THREAD_CPUTIME_ID, &mut time) };
    assert_eq!(failed, 0, "the clock of this thread can't be read");
    time.seconds as f64 + 1e-9 * time.nanoseconds as f64
}
