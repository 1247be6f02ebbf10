//! The proved library beside that of another commit: two processes of this program, each with its own library, turn and
//! turn about on the same paths and graphs. Of comparing and ordering, what the questions take is measured beside each
//! and taken off.
use std::env;
use std::path::Path;
use std::time::{Duration, Instant};

use plain::samples::ordered::ORDERED_SHAPES;
use plain::samples::strength::SHAPES;

use crate::turns::{self, Turns};
use crate::{graphs, order, paths, strength};

/// A path's bytes, some more or fewer, and a graph's nodes.
const LENGTHS: [usize; 4] = [16, 60, 120, 240];
const SIZES: [usize; 4] = [16, 64, 256, 1_024];

/// The turns on a graph go on for so long, and there are at least so many.
const LONG: Duration = Duration::from_millis(2_000);
const LEAST: usize = 10;

/// What is measured, and on which shapes.
fn measured() -> impl Iterator<Item = (&'static str, &'static str)> {
    let read = [("prim count", "paths"), ("check", "paths"), ("read", "paths")];
    let compared = |what| SHAPES.iter().map(move |(name, _)| (what, *name));
    let ordered = ORDERED_SHAPES.iter().map(|(name, _)| ("order", *name));
    read.into_iter().chain(compared("siblings")).chain(compared("nodes")).chain(ordered)
}

/// Prints a line for each size, or for those of one shape: nanoseconds before, now, and their ratio. `other` is this
/// program with the library of another commit. Fails where one of the two does not answer; no such shape gives nothing.
pub fn measure(other: &str, only: Option<&str>) -> Option<bool> {
    let shapes: Vec<_> = measured().filter(|(_, shape)| only.is_none_or(|only| only == *shape)).collect();
    shapes.first()?;
    println!("nanoseconds: for a path's prim count; for each node, checking an arena and reading a snapshot;");
    println!("for a pair of nodes and for ordering a graph, both without the questions\n");
    println!("| what | shape | bytes or nodes | before | now | now / before |");
    println!("|---|---|---|---|---|---|");
    for (what, shape) in shapes {
        for size in if what == "prim count" { LENGTHS } else { SIZES } {
            if compare(other, what, shape, size).is_none() {
                println!("{other} measures no {what} of {shape} of {size}: it is not built, or its library refuses it");
                return Some(false);
            }
        }
    }
    Some(true)
}

/// A graph without pairs has no line.
fn compare(other: &str, what: &str, shape: &str, size: usize) -> Option<()> {
    let words = ["turns", what, shape, &size.to_string()];
    let mut sides = [Turns::start(Path::new(other), &words)?, Turns::start(&env::current_exe().ok()?, &words)?];
    let mut least = [Times::MOST; 2];
    let begun = Instant::now();
    let mut rounds = 0;
    while rounds < LEAST || begun.elapsed() < LONG {
        for (times, side) in least.iter_mut().zip(&mut sides) {
            let (call, questions) = side.turn()?;
            *times = times.least(Times { call: call.parse().ok()?, questions: questions.parse().ok()? });
        }
        rounds += 1;
    }
    let [before, now] = least.map(Times::without);
    if now > 0.0 {
        println!("| {what} | {shape} | {size} | {before:.2} | {now:.2} | {:.3} |", now / before);
    }
    Some(())
}

/// Nanoseconds: the whole call, and its questions alone.
#[derive(Clone, Copy)]
struct Times {
    call: f64,
    questions: f64,
}

impl Times {
    const MOST: Self = Self { call: f64::MAX, questions: f64::MAX };

    fn least(self, other: Self) -> Self {
        Self { call: self.call.min(other.call), questions: self.questions.min(other.questions) }
    }

    fn without(self) -> f64 {
        self.call - self.questions
    }
}

/// Whether libraries from before document 02's W2 read the path too: no selection is empty or has `-` or `|`.
fn was_path(path: &[u8]) -> bool {
    !path.iter().any(|byte| b"-|".contains(byte)) && !path.windows(2).any(|two| two == b"=}")
}

/// Answers the turns of one size; nothing where there is no such shape.
pub fn serve(what: &str, shape: &str, size: &str) -> Option<bool> {
    let size: usize = size.parse().ok()?;
    let answered = match what {
        "prim count" => turns::serve(|| paths::turns(size, was_path)),
        "check" | "read" => {
            let mut graph = graphs::Graph::of_paths(size, was_path);
            turns::serve(|| graph.turns(what == "check"))
        }
        "siblings" | "nodes" => {
            let (_, nodes) = SHAPES.iter().find(|(name, _)| *name == shape)?;
            let graph = strength::Graph::new(nodes(size));
            turns::serve(|| graph.turns(what == "siblings", turns::LONG))
        }
        "order" => {
            let (_, nodes) = ORDERED_SHAPES.iter().find(|(name, _)| *name == shape)?;
            let mut graph = order::Graph::new(&nodes(size));
            turns::serve(|| graph.turns())
        }
        _ => return None,
    };
    Some(answered.is_ok())
}
