//! The proved check of an arena (document 01, question 2) against the plain one, on damaged and whole arenas.
use plain::arena::holds_graph;
use plain::layout::{HEADER_BYTES, MAX_NODES};
use plain::random::Random;
use plain::samples::arenas::{Arena, EMPTY_MARKS};
use plain::samples::damaged_arenas::{KINDS, damage};

use crate::proved;

/// Arenas made of one graph: the whole one, and damaged ones.
const OF_ONE_GRAPH: usize = 8;

/// Kinds of damage, and of a thousand damaged arenas how many at least hold no graph for such damage alone.
const LEAST: [(&str, usize); 3] =
    [("child list cut short", 20), ("child list into a cycle", 20), ("tails of two child lists crossed", 15)];

/// Compares the checks on every arena of [`EMPTY_MARKS`], on `count` damaged arenas and on whole ones between them, at
/// most as many, and prints what was found. Answers whether they agree on all, so many are damaged, and each kind of
/// [`LEAST`] came up often enough.
pub fn compare(seed: u64, count: usize) -> bool {
    let mut random = Random::new(seed);
    let mut arena = Arena::any(&mut random);
    let mut found = Found::default();
    for (at, (marks, holds)) in EMPTY_MARKS.into_iter().enumerate() {
        arena.empty(marks);
        assert_eq!(holds_graph(arena.bytes()), holds, "no node, marked {marks:?}");
        found.take(at, &arena, 0, &[]);
    }
    for at in 0..2 * count {
        if found.damaged == count {
            break;
        }
        if at % OF_ONE_GRAPH == 0 {
            arena.fill(&mut random);
        }
        let nodes = arena.count();
        let kinds = if at % OF_ONE_GRAPH == 0 { Vec::new() } else { damage(&mut arena, &mut random) };
        found.take(at, &arena, nodes, &kinds);
        arena.restore();
    }
    found.print();
    found.smallest.is_none() && found.damaged == count && LEAST.iter().all(|kind| found.is_often(kind))
}

/// What the comparison has found so far.
#[derive(Default)]
struct Found {
    agreed: usize,
    differed: usize,
    /// Arenas in which a byte is another than in the whole one.
    damaged: usize,
    /// Of all arenas, and for each kind of damage of those that have it: how many hold no graph, and how many hold one.
    all: [usize; 2],
    kinds: [[usize; 2]; KINDS.len()],
    /// For each kind, how many hold no graph and have no other damage.
    alone: [usize; KINDS.len()],
    smallest: Option<Difference>,
}

impl Found {
    /// `nodes` is the count of the arena before it was damaged.
    fn take(&mut self, at: usize, arena: &Arena, nodes: usize, kinds: &[usize]) {
        let holds = holds_graph(arena.bytes());
        self.damaged += usize::from(arena.is_changed());
        self.all[usize::from(holds)] += 1;
        kinds.iter().for_each(|&kind| self.kinds[kind][usize::from(holds)] += 1);
        if let &[kind] = kinds {
            self.alone[kind] += usize::from(!holds);
        }
        let answered = proved::is_graph(arena.bytes());
        if answered == u32::from(holds) {
            self.agreed += 1;
            return;
        }
        self.differed += 1;
        let size = (nodes, kinds.len());
        if self.smallest.as_ref().is_none_or(|smallest| size < smallest.size) {
            let text =
                format!("arena {at}: plain {}, proved {answered}\n{}", u32::from(holds), shown(arena, nodes, kinds));
            self.smallest = Some(Difference { size, text });
        }
    }

    /// Whether as many hold no graph for damage of this kind as [`LEAST`] asks; says so where they are too few.
    fn is_often(&self, &(name, of_a_thousand): &(&str, usize)) -> bool {
        let kind = KINDS.iter().position(|&(other, _)| other == name).expect("a kind of damage");
        let least = self.damaged * of_a_thousand / 1_000;
        if self.alone[kind] < least {
            println!("{name}: only {} arenas hold no graph for this alone, not {least}", self.alone[kind]);
        }
        self.alone[kind] >= least
    }

    fn print(&self) {
        println!("{:34} {:>9} {:>9} {:>9}", "damage", "graph", "no graph", "it alone");
        for (((name, _), [not, held]), alone) in KINDS.iter().zip(self.kinds).zip(self.alone) {
            println!("{name:34} {held:9} {not:9} {alone:9}");
        }
        println!("{:34} {:9} {:9}", "all arenas", self.all[1], self.all[0]);
        println!("arenas: {} agree, {} differ; {} are damaged", self.agreed, self.differed, self.damaged);
        if let Some(smallest) = &self.smallest {
            println!("the smallest that differs:\n{}", smallest.text);
        }
    }
}

/// An arena on which the checks differ.
struct Difference {
    /// The nodes, and the places damaged.
    size: (usize, usize),
    text: String,
}

/// The damage and the bytes.
fn shown(arena: &Arena, nodes: usize, kinds: &[usize]) -> String {
    let names: Vec<&str> = kinds.iter().map(|&kind| KINDS[kind].0).collect();
    let mut text = format!("damage: {}\n", if names.is_empty() { "none".into() } else { names.join("; ") });
    text += &format!("header {}\n", hex(&arena.bytes()[..HEADER_BYTES]));
    for node in 0..nodes.max(arena.count().min(MAX_NODES)) {
        text += &format!("slot {node} {}\n", hex(arena.used(node)));
    }
    text
}

fn hex(bytes: &[u8]) -> String {
    bytes.iter().map(|byte| format!("{byte:02x}")).collect()
}
