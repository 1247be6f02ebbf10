//! The clock.
use std::time::{Duration, Instant};

use plain::clock;

/// Nanoseconds for one of so many runs; there must be enough of them that the clock's own time does not count.
fn turn(runs: usize, run: &mut impl FnMut()) -> f64 {
    let start = Instant::now();
    for _ in 0..runs {
        run();
    }
    start.elapsed().as_nanos() as f64 / runs as f64
}

/// Nanoseconds for one run of each of two: the least of many turns, turn and turn about, so that both meet the same
/// machine.
pub fn least(turns: usize, runs: usize, mut one: impl FnMut(), mut other: impl FnMut()) -> (f64, f64) {
    let both = (0..turns).map(|_| (turn(runs, &mut one), turn(runs, &mut other)));
    both.fold((f64::MAX, f64::MAX), |least, both| (least.0.min(both.0), least.1.min(both.1)))
}

/// Turns of runs that take long go on for a fifth of a second.
pub const LONG: Duration = Duration::from_millis(200);

/// Nanoseconds for one run that takes long: the least of those made in that time.
pub fn least_for(run: impl FnMut()) -> f64 {
    least_within(LONG, run)
}

/// The same in so long a time.
pub fn least_within(long: Duration, mut run: impl FnMut()) -> f64 {
    let begun = Instant::now();
    let mut least = f64::MAX;
    while least == f64::MAX || begun.elapsed() < long {
        least = least.min(turn(1, &mut run));
    }
    least
}

/// Nanoseconds for one run: the least of those made in so long a time, less the clock's own. What `before` does is not
/// counted.
pub fn least_after<T>(long: Duration, on: &mut T, before: impl Fn(&mut T), run: impl Fn(&mut T)) -> f64 {
    let begun = Instant::now();
    let (mut least, mut clock) = (f64::MAX, f64::MAX);
    while least == f64::MAX || begun.elapsed() < long {
        before(on);
        least = least.min(clock::nanoseconds(|| run(on)) as f64);
        clock = clock.min(clock::nanoseconds(|| ()) as f64);
    }
    least - clock.min(least)
}

#[cfg(test)]
mod tests {
    use std::cell::Cell;
    use std::time::Duration;

    #[test]
    fn turns_and_runs() {
        let (one, other) = (Cell::new(0), Cell::new(0));
        let (first, second) = super::least(7, 2, || one.set(one.get() + 1), || other.set(other.get() + 1));
        assert!(first < f64::MAX && second < f64::MAX);
        assert_eq!((one.get(), other.get()), (14, 14));
    }

    #[test]
    fn turns_for_a_while() {
        let runs = Cell::new(0);
        let least = super::least_for(|| runs.set(runs.get() + 1));
        assert!(runs.get() >= 1 && least < 1e9);
    }

    #[test]
    fn turns_after_something() {
        let mut done = [0; 2];
        let least = super::least_after(Duration::ZERO, &mut done, |done| done[0] += 1, |done| done[1] += 1);
        assert_eq!(done, [1, 1]);
        assert!((0.0..1e9).contains(&least));
    }
}
