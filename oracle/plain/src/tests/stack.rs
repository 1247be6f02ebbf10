//! The measure of the stack.

use std::hint::black_box;

use crate::stack::{LEAST_BYTES, used, within};

/// Uses at least so many bytes, all of them written.
#[inline(never)]
fn array<const BYTES: usize>() {
    black_box(&mut [1_u8; BYTES]);
}

/// As often inside itself.
#[inline(never)]
fn nested(times: usize) {
    if times > 0 {
        array::<256>();
        nested(black_box(times - 1));
    }
    black_box(times);
}

#[test]
fn arrays() {
    assert_eq!(used(|| ()), LEAST_BYTES);
    assert!((20_000..24_000).contains(&used(array::<20_000>)));
    assert!((100_000..104_000).contains(&used(array::<100_000>)));
    within(64 << 10, array::<20_000>);
}

#[test]
fn recursion() {
    let [few, many] = [100, 1_000].map(|times| used(|| nested(times)));
    assert!(many > 5 * few, "{few} {many}");
    assert!(used(|| nested(1_000)).abs_diff(many) < 256);
}
