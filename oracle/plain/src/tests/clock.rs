//! The clock.

use std::hint::black_box;
use std::thread::sleep;
use std::time::Duration;

use crate::clock::nanoseconds;

/// Sleeping is no work beside some.
#[test]
fn work_and_rest() {
    let work = || (0..10_000_000_u64).for_each(|number| _ = black_box(number));
    let rested = nanoseconds(|| {
        work();
        sleep(Duration::from_secs(2));
    });
    assert!((1_000_000..2_000_000_000).contains(&rested), "{rested}");
    assert!(nanoseconds(|| sleep(Duration::from_millis(20))) >= 20_000_000);
}
