//! Comparing nodes: the siblings of a graph and random pairs of its nodes in one checked arena, beside the Rust; and one
//! public call, which checks its arena.
use std::fmt;
use std::hint::black_box;
use std::path::Path;
use std::process::Command;
use std::time::Duration;

use plain::layout::ARENA_BYTES;
use plain::samples::graphs::{Node, snapshot};
use plain::samples::strength::{MEASURED_PAIRS, SHAPES, random_pairs, sibling_pairs};

use crate::{proved, time};

const SIZES: [usize; 4] = [16, 64, 256, 1_024];

/// The Rust and ours are measured turn and turn about, so many times; the least counts.
const ROUNDS: usize = 3;

pub fn measure() -> bool {
    println!("nanoseconds for each pair, without the questions, put to all before the first is compared\n");
    println!("{:14} {:^35}   {:^26}   both", "", "all siblings", "10,000 random pairs");
    println!("{:14} {:>8} {MEASURED}   {MEASURED}  proved / Rust", "", "pairs");
    for (name, shape) in SHAPES {
        SIZES.iter().for_each(|&size| compare(name, &Graph::new(shape(size))));
    }
    println!("\none public call: the call, the check of the arena in it, the check / the call");
    for (name, shape) in SHAPES {
        SIZES.iter().for_each(|&size| call(name, &Graph::new(shape(size))));
    }
    true
}

const MEASURED: &str = " the Rust    proved  ratio";

/// A graph as an arena, and its pairs.
pub struct Graph {
    size: usize,
    arena: Vec<u8>,
    /// How many pairs of siblings there are; `siblings` has them more than once where they are few.
    sibling_pairs: usize,
    siblings: Vec<(u32, u32)>,
    random: Vec<(u32, u32)>,
}

impl Graph {
    pub fn new(nodes: Vec<Node>) -> Self {
        let mut arena = vec![0; ARENA_BYTES];
        assert_eq!(plain::snapshot::read(&snapshot(&nodes), &mut arena), Ok(nodes.len()));
        assert_eq!(proved::is_graph(&arena), 1, "what is refused takes no time");
        Self {
            size: nodes.len(),
            arena,
            sibling_pairs: sibling_pairs(&nodes, 0).len(),
            siblings: sibling_pairs(&nodes, MEASURED_PAIRS),
            random: random_pairs(&nodes, MEASURED_PAIRS),
        }
    }

    /// Nanoseconds for each pair, the least of the turns of so long a time: comparing with the questions, which are all
    /// put before the first pair is compared, of the arena, then of every pair; and the questions alone. No pairs take
    /// no time.
    pub fn turns(&self, siblings: bool, long: Duration) -> (f64, f64) {
        let (pairs, compare) = self.comparing(siblings);
        let bytes = bytes(pairs);
        if pairs.is_empty() {
            return (0.0, 0.0);
        }
        let asking = time::least_within(long, || {
            _ = black_box(proved::ask_pairs(black_box(&self.arena), black_box(&bytes), siblings));
        });
        let call = time::least_within(long, || _ = black_box(compare(black_box(&self.arena), black_box(&bytes))));
        (call / pairs.len() as f64, asking / pairs.len() as f64)
    }

    /// The pairs, and what compares them.
    fn comparing(&self, siblings: bool) -> (&[(u32, u32)], fn(&[u8], &[u8]) -> Result<u32, u32>) {
        if siblings { (&self.siblings, proved::compare_sibling_pairs) } else { (&self.random, proved::compare_pairs) }
    }
}

/// Each pair two big-endian numbers.
fn bytes(pairs: &[(u32, u32)]) -> Vec<u8> {
    pairs.iter().flat_map(|(a, b)| [a.to_be_bytes(), b.to_be_bytes()].concat()).collect()
}

fn compare(shape: &str, graph: &Graph) {
    let rounds: Option<Vec<[Times; 2]>> = (0..ROUNDS).map(|_| round(shape, graph)).collect();
    let Some(rounds) = rounds else {
        println!("{shape:8} {:5} (build oracle/ for the Rust's time)", graph.size);
        return;
    };
    let [siblings, random] =
        rounds.into_iter().fold([Times::MOST; 2], |least, round| [least[0].least(round[0]), least[1].least(round[1])]);
    let both = |side: fn(&Times) -> f64| {
        graph.sibling_pairs as f64 * side(&siblings) + graph.random.len() as f64 * side(&random)
    };
    let ratio = both(|times| times.proved) / both(|times| times.rust);
    println!("{shape:8} {:5} {:8} {siblings}   {random} {ratio:6.2}", graph.size, graph.sibling_pairs);
}

/// The Rust, then ours: of siblings and of random pairs.
fn round(shape: &str, graph: &Graph) -> Option<[Times; 2]> {
    let [siblings, random] = time_of_the_rust(shape, graph.size)?;
    Some([beside(graph, true, siblings), beside(graph, false, random)])
}

/// Nanoseconds for each pair.
#[derive(Clone, Copy)]
struct Times {
    rust: f64,
    proved: f64,
}

impl Times {
    const MOST: Self = Self { rust: f64::MAX, proved: f64::MAX };

    fn least(self, other: Self) -> Self {
        Self { rust: self.rust.min(other.rust), proved: self.proved.min(other.proved) }
    }
}

impl fmt::Display for Times {
    fn fmt(&self, f: &mut fmt::Formatter<'_>) -> fmt::Result {
        if self.rust == 0.0 {
            return write!(f, "{:>9} {:>9} {:>6}", "-", "-", "-");
        }
        write!(f, "{:9.1} {:9.1} {:6.2}", self.rust, self.proved, self.proved / self.rust)
    }
}

/// Ours are less what the questions take. The answers must have one sum.
fn beside(graph: &Graph, siblings: bool, rust: Compared) -> Times {
    let (pairs, compare) = graph.comparing(siblings);
    assert_eq!(compare(&graph.arena, &bytes(pairs)), Ok(rust.sum), "the answers are the Rust's");
    assert_eq!(proved::ask_pairs(&graph.arena, &bytes(pairs), siblings), Ok(0), "no pair is refused");
    let (call, asking) = graph.turns(siblings, time::LONG);
    Times { rust: rust.nanoseconds / pairs.len().max(1) as f64, proved: call - asking }
}

/// One public call on the last two nodes.
fn call(shape: &str, graph: &Graph) {
    let (a, b) = (graph.size as u32 - 2, graph.size as u32 - 1);
    assert!(proved::compare_node_strength(&graph.arena, a, b).is_ok());
    let runs = 8_192 / graph.size;
    let (call, check) = time::least(
        200,
        runs,
        || _ = black_box(proved::compare_node_strength(black_box(&graph.arena), a, b)),
        || _ = black_box(proved::is_graph(black_box(&graph.arena))),
    );
    println!("{shape:8} {:5} {call:9.1} {check:9.1} {:6.2}", graph.size, check / call);
}

/// What the Rust took for all pairs, and the sum of its answers.
#[derive(Clone, Copy)]
struct Compared {
    nanoseconds: f64,
    sum: u32,
}

/// What `oracle time-comparing` measures: siblings, then random pairs.
fn time_of_the_rust(shape: &str, size: usize) -> Option<[Compared; 2]> {
    let oracle = Path::new(env!("CARGO_MANIFEST_DIR")).join("../oracle/target/release/oracle");
    let printed = Command::new(oracle).args(["time-comparing", shape, &size.to_string()]).output().ok()?;
    let text = String::from_utf8(printed.stdout).ok()?;
    let mut words = text.split_whitespace();
    let mut next = || {
        let nanoseconds = words.next()?.parse().ok()?;
        Some(Compared { nanoseconds, sum: words.next()?.parse().ok()? })
    };
    Some([next()?, next()?])
}
