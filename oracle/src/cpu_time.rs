//! CPU time of the thread that asks, by the C library that std links on Linux.
use std::hint::black_box;
use std::time::Duration;

/// `struct timespec`, where a `long` has 64 bits.
#[repr(C)]
struct TimeSpec {
    seconds: i64,
    nanoseconds: i64,
}

const CLOCK_THREAD_CPUTIME_ID: i32 = 3;

unsafe extern "C" {
    fn clock_gettime(clock: i32, time: *mut TimeSpec) -> i32;
}

/// What this thread has taken so far. Asking takes about half a microsecond, so what is timed should take many times that.
fn now() -> Duration {
    let mut time = TimeSpec { seconds: 0, nanoseconds: 0 };
    // Safe: the place is borrowed alone and has the form of a `struct timespec`.
    let status = unsafe { clock_gettime(CLOCK_THREAD_CPUTIME_ID, &mut time) };
    assert_eq!(status, 0, "the system does not tell a thread's CPU time");
    Duration::new(time.seconds as u64, time.nanoseconds as u32)
}

/// What the work takes. Dropping what it gives is no part of it.
pub fn of<T>(work: impl FnOnce() -> T) -> Duration {
    let start = now();
    let given = black_box(work());
    let taken = now() - start;
    drop(given);
    taken
}

/// What a round took: the Rust's turn, and the port's.
pub type Round = [Duration; 2];

pub const NO_ROUND: Round = [Duration::MAX; 2];

/// The lesser time of each side.
pub fn least(one: Round, other: Round) -> Round {
    [one[0].min(other[0]), one[1].min(other[1])]
}
