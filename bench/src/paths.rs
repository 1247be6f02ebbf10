//! Reading a path: `path::prim_count` beside a plain Rust scan.
use std::hint::black_box;
use std::iter;

use plain::path::prim_count;
use plain::random::Random;
use plain::samples;

use crate::{proved, time, turns};

/// What `bench_prim_count` answers for bytes that are no path.
const MALFORMED: u32 = 65536;

fn plainly(path: &[u8]) -> u32 {
    prim_count(path).map_or(MALFORMED, u32::from)
}

/// Reads all strings.
fn read_all(strings: &[Vec<u8>], read: impl Fn(&[u8]) -> u32) {
    for string in strings {
        black_box(read(black_box(string)));
    }
}

/// 2,000 paths of about `length` bytes that are taken; the same ones each time.
fn strings(length: usize, taken: impl Fn(&[u8]) -> bool) -> Vec<Vec<u8>> {
    let mut random = Random::new(length as u64);
    iter::repeat_with(|| samples::path(&mut random, length)).filter(|path| taken(path)).take(2000).collect()
}

/// Nanoseconds for the prim count of such a path, the least of the turns of a while, and nothing beside it.
pub fn turns(length: usize, taken: impl Fn(&[u8]) -> bool) -> (f64, f64) {
    let strings = strings(length, taken);
    (time::least_within(turns::LONG, || read_all(&strings, proved::prim_count)) / strings.len() as f64, 0.0)
}

pub fn measure() -> bool {
    println!("reading a path: bytes, plain Rust ns, proved ns, proved / plain");
    for length in [10, 30, 60, 120, 240] {
        let strings = strings(length, |_| true);
        for string in &strings {
            assert_eq!(plainly(string), proved::prim_count(string));
        }
        let bytes = strings.iter().map(Vec::len).sum::<usize>() / strings.len();
        let (rust, ours) =
            time::least(200, 1, || read_all(&strings, plainly), || read_all(&strings, proved::prim_count));
        let (rust, ours) = (rust / strings.len() as f64, ours / strings.len() as f64);
        println!("{bytes:5} {rust:9.1} {ours:9.1} {:9.2}", ours / rust);
    }
    true
}
