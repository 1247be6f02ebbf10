//! Ordering a graph, without question 2 and with it, beside the Rust: turn and turn about, in one run.
use std::hint::black_box;
use std::path::Path;
use std::time::{Duration, Instant};

use plain::layout::{ARENA_BYTES, ORDER_ENTRY, PRIM_COUNT, slot_at, u32_at};
use plain::samples::graphs::{Node, snapshot};
use plain::samples::ordered::ORDERED_SHAPES;

use crate::turns::{self, Turns};
use crate::{proved, time};

const SIZES: [usize; 4] = [16, 64, 256, 1_024];

/// A graph has at least so many rounds, and they go on for so long. In each, the call and question 2 have turns for a while.
const ROUNDS: usize = 5;
const LONG: Duration = Duration::from_millis(1_000);

/// Prints the table, a line for each shape and size. Fails where there is no Rust.
pub fn measure() -> bool {
    println!("microseconds for ordering a graph; a ratio above 1.00 is marked !\n");
    println!("| shape | nodes | the Rust | without question 2 | question 2 | without / Rust | with / Rust |");
    println!("|---|---|---|---|---|---|---|");
    let mut above = [0; 2];
    for (name, shape) in ORDERED_SHAPES {
        for size in SIZES {
            let Some(times) = times(name, shape(size)) else {
                println!("build oracle/ first: the Rust orders no {name} of {size} nodes");
                return false;
            };
            times.print(name, size);
            above = [0, 1].map(|at| above[at] + usize::from(is_above(times.ratios()[at])));
        }
    }
    let lines = ORDERED_SHAPES.len() * SIZES.len();
    println!("\nabove 1.00 of {lines} lines: {} without question 2, {} with it", above[0], above[1]);
    true
}

/// A ratio that is printed as more than 1.00.
fn is_above(ratio: f64) -> bool {
    ratio >= 1.005
}

/// Nanoseconds for one graph: the Rust, our whole call, and question 2 alone.
#[derive(Clone, Copy)]
struct Times {
    rust: f64,
    call: f64,
    check: f64,
}

impl Times {
    const MOST: Self = Self { rust: f64::MAX, call: f64::MAX, check: f64::MAX };

    fn least(self, other: Self) -> Self {
        Self { rust: self.rust.min(other.rust), call: self.call.min(other.call), check: self.check.min(other.check) }
    }

    fn without(self) -> f64 {
        self.call - self.check
    }

    /// Without question 2, and with it.
    fn ratios(self) -> [f64; 2] {
        [self.without() / self.rust, self.call / self.rust]
    }

    fn print(self, shape: &str, size: usize) {
        let times = [self.rust, self.without(), self.check].map(|time| format!("{:.2}", time / 1_000.0));
        let ratios = self.ratios().map(|ratio| format!("{ratio:.2}{}", if is_above(ratio) { " !" } else { "" }));
        println!("| {shape} | {size} | {} | {} |", times.join(" | "), ratios.join(" | "));
    }
}

/// The least of all rounds, each of them the Rust's turns, then ours; our order must be the Rust's.
fn times(shape: &str, nodes: Vec<Node>) -> Option<Times> {
    let oracle = Path::new(env!("CARGO_MANIFEST_DIR")).join("../oracle/target/release/oracle");
    let mut rust = Turns::start(&oracle, &["time-ordering", shape, &nodes.len().to_string()])?;
    let mut graph = Graph::new(&nodes);
    assert_eq!(proved::finalize_strength_order(&mut graph.arena), Ok(0));
    let our_sum = graph.order_sum();
    let (mut times, mut rounds) = (Times::MOST, 0);
    let begun = Instant::now();
    while rounds < ROUNDS || begun.elapsed() < LONG {
        let (nanoseconds, sum) = rust.turn()?;
        assert_eq!(Ok(our_sum), sum.parse(), "the order is the Rust's");
        let (call, check) = graph.turns();
        times = times.least(Times { rust: nanoseconds.parse().ok()?, call, check });
        rounds += 1;
    }
    Some(times)
}

/// A graph in an arena, and what ordering writes of it: the header, and of each slot what stands before the record.
pub struct Graph {
    size: usize,
    arena: Vec<u8>,
    unordered: Vec<[u8; PRIM_COUNT]>,
}

impl Graph {
    pub fn new(nodes: &[Node]) -> Self {
        let mut arena = vec![0; ARENA_BYTES];
        assert_eq!(plain::snapshot::read(&snapshot(nodes), &mut arena), Ok(nodes.len()));
        assert_eq!(proved::is_graph(&arena), 1, "what is refused takes no time");
        let starts = [0].into_iter().chain((0..nodes.len()).map(slot_at));
        let unordered = starts.map(|start| arena[start..][..PRIM_COUNT].try_into().expect("as many bytes")).collect();
        Self { size: nodes.len(), arena, unordered }
    }

    fn put_back(&mut self) {
        let starts = [0].into_iter().chain((0..self.size).map(slot_at));
        starts.zip(&self.unordered).for_each(|(start, bytes)| self.arena[start..][..PRIM_COUNT].copy_from_slice(bytes));
    }

    /// The least of the turns of a while: the whole call, and question 2 alone.
    pub fn turns(&mut self) -> (f64, f64) {
        let call = time::least_after(turns::LONG, self, Self::put_back, |graph| {
            _ = black_box(proved::finalize_strength_order(black_box(&mut graph.arena)));
        });
        let check = time::least_after(turns::LONG, self, Self::put_back, |graph| {
            _ = black_box(proved::is_graph(black_box(&graph.arena)));
        });
        (call, check)
    }

    /// Each place times its node's number, as the oracle adds them up.
    fn order_sum(&self) -> u64 {
        let node = |place| u64::from(u32_at(&self.arena, slot_at(place) + ORDER_ENTRY));
        (0..self.size).map(|place| place as u64 * node(place)).sum()
    }
}
