//! Culling a graph, its erasable set, and erasing that: each call with question 2 and without, beside the Rust.
use std::hint::black_box;
use std::path::Path;
use std::process::Command;

use plain::culling::SET_BYTES;
use plain::layout::{ARENA_BYTES, RECORD, slot_at};
use plain::record::FLAGS;
use plain::samples::culls::CULLED_SHAPES;
use plain::samples::graphs::{Node, snapshot};

use crate::{proved, time};

const SIZES: [usize; 3] = [10, 100, 1_024];

/// The Rust and ours are measured turn and turn about, so many times; the least counts.
const ROUNDS: usize = 3;

/// What is measured.
const CALLS: [&str; 3] = ["culling", "erasable set", "erasing"];

pub fn measure() -> bool {
    println!("microseconds for one call; without is without question 2, which has its own column\n");
    let titles =
        ["the Rust", "our call", "without", "call / Rust", "without / Rust"].map(|title| format!("{title:>14}"));
    for (at, call) in CALLS.iter().enumerate() {
        println!("{call:14} {:>6} {:>12} {}", "kept", "question 2", titles.join(" "));
        for (name, shape) in CULLED_SHAPES {
            SIZES.iter().for_each(|&size| print(name, &Graph::new(shape(size)), at));
        }
        println!();
    }
    true
}

/// A graph as an arena, the same culled, and its erasable set.
struct Graph {
    size: usize,
    arena: Vec<u8>,
    culled: Vec<u8>,
    set: Vec<u8>,
}

impl Graph {
    fn new(nodes: Vec<Node>) -> Self {
        let mut arena = vec![0; ARENA_BYTES];
        assert_eq!(plain::snapshot::read(&snapshot(&nodes), &mut arena), Ok(nodes.len()));
        let mut culled = arena.clone();
        assert_eq!(plain::culling::cull(&mut culled), Ok(()));
        let mut set = vec![0; SET_BYTES];
        assert_eq!(plain::culling::erasable(&culled, &mut set), Ok(()));
        Self { size: nodes.len(), arena, culled, set }
    }

    /// Nanoseconds for the call with this place in [`CALLS`]. What it changes is put back each time, which is timed by
    /// itself and taken off.
    fn time(&self, call: usize) -> f64 {
        let (mut arena, mut set) = (self.culled.clone(), vec![0; SET_BYTES]);
        let flags: Vec<usize> = (0..self.size).map(|node| slot_at(node) + RECORD + FLAGS).collect();
        let used = slot_at(self.size);
        match call {
            0 => changing(
                &mut arena,
                |to| flags.iter().for_each(|&at| to[at] = self.arena[at]),
                |to| {
                    _ = black_box(proved::cull(to));
                },
            ),
            1 => time::least_for(|| _ = black_box(proved::erasable(black_box(&self.culled), &mut set))),
            _ => changing(
                &mut arena,
                |to| to[..used].copy_from_slice(&self.culled[..used]),
                |to| {
                    _ = black_box(proved::erase(to, black_box(&self.set)));
                },
            ),
        }
    }

    /// Every call does what plain Rust does; how many nodes are kept.
    fn kept(&self) -> u32 {
        let (mut arena, mut set) = (self.arena.clone(), vec![7; SET_BYTES]);
        assert_eq!(proved::cull(&mut arena), Ok(0));
        assert!(arena == self.culled, "culled as it should be");
        assert_eq!(proved::erasable(&arena, &mut set), Ok(0));
        assert!(set == self.set, "the erasable set");
        let mut expected = self.culled.clone();
        let kept = plain::erasing::erase(&mut expected, &set).map_or(0, |kept| kept as u32);
        assert_eq!(proved::erase(&mut arena, &set), Ok(kept));
        assert!(arena == expected, "erased as it should be");
        kept
    }
}

/// Nanoseconds for the call alone.
fn changing(arena: &mut [u8], put_back: impl Fn(&mut [u8]), call: impl Fn(&mut [u8])) -> f64 {
    let both = time::least_for(|| {
        put_back(black_box(arena));
        call(black_box(arena));
    });
    both - time::least_for(|| put_back(black_box(arena)))
}

fn print(shape: &str, graph: &Graph, call: usize) {
    let kept = graph.kept();
    let rounds: Option<Vec<[f64; 3]>> = (0..ROUNDS).map(|_| round(shape, graph, call, kept)).collect();
    let Some(rounds) = rounds else {
        println!("{shape:8} {:5} (build oracle/ for the Rust's time)", graph.size);
        return;
    };
    let [rust, ours, check] = [0, 1, 2].map(|at| rounds.iter().map(|round| round[at]).fold(f64::MAX, f64::min));
    let without = ours - check;
    let times = [rust, ours, without].map(|nanoseconds| format!("{:14.2}", nanoseconds / 1_000.0));
    let ratios = [ours / rust, without / rust].map(|ratio| format!("{ratio:14.2}"));
    let check = check / 1_000.0;
    println!("{shape:8} {:5} {kept:6} {check:12.2} {} {}", graph.size, times.join(" "), ratios.join(" "));
}

/// The Rust, which must keep as many nodes; our call; and question 2 of its arena alone.
fn round(shape: &str, graph: &Graph, call: usize, kept: u32) -> Option<[f64; 3]> {
    let (rust, kept_there) = time_of_the_rust(shape, graph.size)?;
    assert_eq!(kept, kept_there, "the Rust keeps as many");
    let arena = if call == 0 { &graph.arena } else { &graph.culled };
    let ours = graph.time(call);
    let check = time::least_for(|| _ = black_box(proved::is_graph(black_box(arena))));
    Some([rust[call], ours, check])
}

/// What `oracle time-culling` measures, in nanoseconds, and how many nodes are kept.
fn time_of_the_rust(shape: &str, size: usize) -> Option<([f64; 3], u32)> {
    let oracle = Path::new(env!("CARGO_MANIFEST_DIR")).join("../oracle/target/release/oracle");
    let printed = Command::new(oracle).args(["time-culling", shape, &size.to_string()]).output().ok()?;
    let text = String::from_utf8(printed.stdout).ok()?;
    let words: Vec<&str> = text.split_whitespace().collect();
    let [culling, erasable, erasing, kept] = words[..] else {
        return None;
    };
    Some(([culling.parse().ok()?, erasable.parse().ok()?, erasing.parse().ok()?], kept.parse().ok()?))
}
