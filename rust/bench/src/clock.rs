//! The time that this thread has had a processor: what other programs take
//! does not count.

pub type Nanoseconds = f64;

#[repr(C)]
#[derive(Default)]
struct Time {
    seconds: i64,
    nanoseconds: i64,
}

/// Linux's `CLOCK_THREAD_CPUTIME_ID`.
const THREAD_CLOCK: i32 = 3;

extern "C" {
    fn clock_gettime(clock: i32, time: *mut Time) -> i32;
}

pub fn processor_time() -> Nanoseconds {
    let mut time = Time::default();
    // SAFETY: the pointer is that of a live, writable `timespec` of 64-bit Linux.
    let status = unsafe { clock_gettime(THREAD_CLOCK, &mut time) };
    assert_eq!(status, 0, "no clock of the thread's time");
    time.seconds as f64 * 1e9 + time.nanoseconds as f64
}
