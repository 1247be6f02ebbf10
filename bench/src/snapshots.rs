//! The proved reader of snapshots against the plain one: the answer, and every byte of the arena.
use plain::layout::ARENA_BYTES;
use plain::random::Random;
use plain::samples::damaged_snapshots::damaged;
use plain::samples::graphs::{crowded, nodes, snapshot};

use crate::proved;

/// Of a thousand snapshots at least so many are accepted (0) or refused by each of these checks, and at least so many
/// nodes are in those that are accepted.
const LEAST: [(usize, usize); 6] = [(0, 100), (4, 30), (5, 30), (6, 30), (7, 1), (12, 100)];
const LEAST_NODES: usize = 400;

/// Compares the readers on `count` snapshots, prints how many were refused by which check, and answers whether the
/// readers agree on all and each answer came up often enough.
pub fn compare(seed: u64, count: usize) -> bool {
    let mut random = Random::new(seed);
    let mut arena: Vec<u8> = (0..ARENA_BYTES).map(|_| random.byte()).collect();
    let mut ours = arena.clone();
    let (mut answers, mut read) = ([0; 13], 0);
    for at in 0..count {
        let bytes = sample(&mut random, at);
        let plain = plain::snapshot::read(&bytes, &mut arena);
        let proved = proved::read_snapshot(&mut ours, &bytes);
        if proved != plain.map(|count| count as u32).map_err(u32::from) || ours != arena {
            println!(
                "snapshots differ: plain {plain:?}, proved {proved:?}, same arena {}: {bytes:02x?}",
                ours == arena
            );
            return false;
        }
        answers[plain.map_or_else(usize::from, |_| 0)] += 1;
        read += plain.unwrap_or(0);
    }
    let refused: Vec<String> =
        (1..13).filter(|&at| answers[at] > 0).map(|at| format!("{at}: {}", answers[at])).collect();
    println!("snapshots: {count} agree, {} accepted with {read} nodes, refused {}", answers[0], refused.join(", "));
    let often = |found: usize, least: usize| found * 1_000 >= least * count;
    often(read, LEAST_NODES) && LEAST.iter().all(|&(answer, least)| often(answers[answer], least))
}

/// Mostly a damaged snapshot; a few are whole, and a few at a limit or just past it.
fn sample(random: &mut Random, at: usize) -> Vec<u8> {
    if at % 500 == 250 {
        let more = random.below(2);
        return snapshot(&crowded(random, more));
    }
    let size = random.below(9);
    let nodes = nodes(random, size);
    if random.one_in(5) { snapshot(&nodes) } else { damaged(random, &nodes) }
}
