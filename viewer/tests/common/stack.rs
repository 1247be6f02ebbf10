//! Each function on the graphs that take it deep into the stack.
use std::cell::RefCell;

use plain::samples::deepest::pairs;
use plain::samples::graphs::{Node, snapshot};
use plain::stack::{Call, Most};
use viewer::*;

/// A graph: in an arena, ordered in another if it has an order, and pairs of its nodes to compare.
struct Graph {
    snapshot: Vec<u8>,
    arena: Vec<u8>,
    ordered: Vec<u8>,
    pairs: Vec<(u32, u32)>,
}

impl Graph {
    fn new(nodes: &[Node]) -> Self {
        let snapshot = snapshot(nodes);
        let mut arena = empty_arena();
        assert_eq!(read_snapshot(&mut arena, &snapshot), Ok(nodes.len() as u32));
        let mut ordered = arena.clone();
        _ = finalize_strength_order(&mut ordered);
        Self { snapshot, arena, ordered, pairs: pairs(nodes) }
    }
}

/// The functions, each with what is called of it on a graph. What it answers does not matter here.
const CALLS: [Call<Graph>; 7] = [
    ("read_snapshot", |graph| WRITTEN.with_borrow_mut(|arena| _ = read_snapshot(arena, &graph.snapshot))),
    ("count", |graph| _ = count(&graph.arena)),
    ("compare_node_strength", |graph| {
        graph.pairs.iter().for_each(|&(a, b)| _ = compare_node_strength(&graph.arena, a, b));
    }),
    ("compare_sibling_node_strength", |graph| {
        graph.pairs.iter().for_each(|&(a, b)| _ = compare_sibling_node_strength(&graph.arena, a, b));
    }),
    ("finalize_strength_order", |graph| {
        WRITTEN.with_borrow_mut(|arena| {
            arena.clone_from(&graph.arena);
            _ = finalize_strength_order(arena);
        });
    }),
    ("strength_order", |graph| _ = strength_order(&graph.ordered)),
    ("order_entry", |graph| _ = order_entry(&graph.ordered, 0)),
];

thread_local! {
    /// An arena to be written to.
    static WRITTEN: RefCell<Vec<u8>> = RefCell::new(empty_arena());
}

/// The most that each function uses, on the shapes and on so many random graphs.
pub fn deepest(seed: u64, count: u64) -> Vec<Most> {
    plain::stack::deepest(&CALLS, Graph::new, seed, count)
}
