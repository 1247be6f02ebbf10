//! The search for graphs that are slow to order: the proved call on random graphs of 1,024 nodes, and the same decided by
//! all pairs alone, which the call comes to only where nothing quicker shows the order.
use std::time::Duration;

use plain::clock;
use plain::layout::{ARENA_BYTES, MAX_NODES};
use plain::random::Random;
use plain::samples::graphs::snapshot;
use plain::samples::twisted::largest;

use crate::proved;

/// No graph may take longer to be ordered or refused.
const MOST: Duration = Duration::from_millis(250);

/// Orders so many graphs, each of a seed of its own, from this one on. Prints how many have no order, and the slowest with
/// its seed; `bench slowest` makes that one alone of its seed and 1. Answers whether all took no more than [`MOST`].
pub fn search(seed: u64, count: usize) -> bool {
    let graphs: Vec<Ordered> = (0..count as u64).map(|at| order(seed.wrapping_add(at))).collect();
    let refused = graphs.iter().filter(|graph| graph.refused).count();
    let slow = graphs.iter().filter(|graph| graph.call.max(graph.by_pairs) > MOST).count();
    println!("graphs of {MAX_NODES} nodes: {} ordered, {refused} without an order, {slow} too slow", count - refused);
    print_slowest("the slowest", &graphs, |graph| graph.call);
    print_slowest("by all pairs the slowest", &graphs, |graph| graph.by_pairs);
    slow == 0
}

/// What ordering the graph of a seed took, and what deciding by all pairs whether it has an order.
struct Ordered {
    seed: u64,
    call: Duration,
    by_pairs: Duration,
    refused: bool,
}

fn print_slowest(name: &str, graphs: &[Ordered], time: fn(&Ordered) -> Duration) {
    let Some(slowest) = graphs.iter().max_by_key(|graph| time(graph)) else { return };
    let answer = if slowest.refused { "has no order" } else { "has an order" };
    println!("{name} is of seed {}, {answer} and took {:.2} ms", slowest.seed, time(slowest).as_secs_f64() * 1_000.0);
}

fn order(seed: u64) -> Ordered {
    let nodes = largest(&mut Random::new(seed));
    let mut arena = vec![0; ARENA_BYTES];
    assert_eq!(plain::snapshot::read(&snapshot(&nodes), &mut arena), Ok(MAX_NODES));
    let (mut decided, mut answer) = (0, Ok(0));
    let by_pairs = clock::nanoseconds(|| decided = proved::has_order(&arena));
    let call = clock::nanoseconds(|| answer = proved::finalize_strength_order(&mut arena));
    assert_eq!(answer, if decided == 1 { Ok(0) } else { Err(9) }, "the graph of seed {seed}");
    let [call, by_pairs] = [call, by_pairs].map(Duration::from_nanos);
    Ordered { seed, call, by_pairs, refused: answer.is_err() }
}
