//! Two clocks. A batch of short calls is timed by the wall clock: it fits between two interruptions, and so the least of several
//! rounds is undisturbed. A call over a whole file does not fit: what counts there is the processor's time for this thread.

use std::time::Instant;

/// Nanoseconds of one run, by the wall clock.
pub fn taken(run: impl FnOnce()) -> u64 {
    let start = Instant::now();
    run();
    start.elapsed().as_nanos() as u64
}

/// Nanoseconds of one run, by the processor's time for this thread.
pub fn worked(run: impl FnOnce()) -> u64 {
    let start = thread_time();
    run();
    thread_time() - start
}

#[repr(C)]
struct Timespec {
    seconds: i64,
    nanoseconds: i64,
}

extern "C" {
    fn clock_gettime(clock: i32, time: *mut Timespec) -> i32;
}

/// Linux's number for it.
const CLOCK_THREAD_CPUTIME_ID: i32 = 3;

/// The C library, which the standard library links anyway, writes one struct of its layout on 64-bit Linux.
fn thread_time() -> u64 {
    let mut time = Timespec {
        seconds: 0,
        nanoseconds: 0,
    };
    let status = unsafe { clock_gettime(CLOCK_THREAD_CPUTIME_ID, &mut time) };
    assert_eq!(status, 0, "a clock of Linux");
    time.seconds as u64 * 1_000_000_000 + time.nanoseconds as u64
}
