//! Which lines of document 01's list for two that are HAS_SPECIALIZES settle the siblings of `script strength`, by the
//! plain reading of that list; and whether the Rust answers the same.

use std::cmp::Ordering;
use std::io::{self, Write};

use plain::samples::graphs::{Node, snapshot};
use plain::strength::{Line, RULES, Strength};

use crate::calls::graph_of;
use crate::pcp::prim_graph::{NodeId, PrimIndexGraph};
use crate::scripts::strength_graphs;

/// How many pairs each line of the list settles, or the first graph on which the plain reading and the Rust differ.
pub fn deciding(seed: u64, count: usize) -> Result<[usize; RULES.len()], String> {
    let mut settled = [0; RULES.len()];
    for nodes in strength_graphs(seed, count) {
        agrees(&nodes)?;
        count_lines(&nodes, &mut settled);
    }
    Ok(settled)
}

/// Prints how many pairs each line settles; fails where the Rust answers otherwise.
pub fn print(seed: u64, count: usize, out: &mut dyn Write) -> io::Result<()> {
    let settled = deciding(seed, count).map_err(|difference| {
        eprintln!("{difference}");
        io::Error::other(difference)
    })?;
    let mut lines = RULES.iter().zip(settled);
    lines.try_for_each(|((_, words), pairs)| writeln!(out, "{pairs:8} {words}"))
}

/// Compares every pair of nodes by both.
fn agrees(nodes: &[Node]) -> Result<(), String> {
    let judge = graph_of(&snapshot(nodes)).map_err(|refusal| format!("refused {}: {nodes:?}", refusal.number))?;
    let plain = Strength::new(nodes);
    for a in 0..nodes.len() {
        for b in 0..nodes.len() {
            let (ours, rust) = (plain.of_nodes(a, b), by_the_rust(judge.graph(), a, b));
            if ours != rust {
                return Err(format!("compare {a} {b}: the plain reading {ours:?}, the Rust {rust:?}: {nodes:?}"));
            }
        }
    }
    Ok(())
}

fn by_the_rust(graph: &PrimIndexGraph, a: usize, b: usize) -> Ordering {
    graph.compare_node_strength(NodeId(a as u32), NodeId(b as u32))
}

/// Counts each pair of siblings once.
fn count_lines(nodes: &[Node], settled: &mut [usize; RULES.len()]) {
    let plain = Strength::new(nodes);
    for a in 1..nodes.len() {
        for b in a + 1..nodes.len() {
            if nodes[a].parent != nodes[b].parent {
                continue;
            }
            if let (_, Line::Specializes(rule)) = plain.of_siblings(a, b) {
                let at = RULES.iter().position(|(other, _)| *other == rule);
                at.into_iter().for_each(|at| settled[at] += 1);
            }
        }
    }
}
