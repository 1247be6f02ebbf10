//! The clock: how long a run takes, without the time in which others had the processor.

use std::time::Instant;

/// Linux's clock of the time that the thread itself has run.
const THREAD_CLOCK: i32 = 3;

unsafe extern "C" {
    fn clock_gettime(clock: i32, seconds_and_nanoseconds: *mut [i64; 2]) -> i32;
}

/// The thread's clock stands still while others run, but its hand may be some microseconds late: it is only read of runs
/// that take so many nanoseconds by it.
const LONG: u64 = 1_000_000;

/// Nanoseconds: of a long run by the thread's clock, of a short one, which is often undisturbed, by the clock on the wall.
pub fn nanoseconds(run: impl FnOnce()) -> u64 {
    let own = thread_time();
    let start = Instant::now();
    run();
    let wall = start.elapsed().as_nanos() as u64;
    let own = thread_time() - own;
    if own < LONG { wall } else { own.min(wall) }
}

fn thread_time() -> u64 {
    let mut time = [0; 2];
    // SAFETY: the time is written there, two numbers of 64 bits.
    assert_eq!(unsafe { clock_gettime(THREAD_CLOCK, &mut time) }, 0, "the thread's clock");
    time[0] as u64 * 1_000_000_000 + time[1] as u64
}
