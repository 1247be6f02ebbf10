//! Document 01, "Cull marks and erasable set": what culling marks in an arena, and what may be erased from it.

use crate::graph::Graph;
use crate::layout::{RECORD, slot_at};
use crate::order::walk;
use crate::path::{back, prim_count};
use crate::record::{CULLED, FLAGS, INERT, ROOT};

/// The bytes of an erase set, one a node.
pub const SET_BYTES: usize = 1_024;

/// Culls the graph in the arena, or answers the number of the question that it fails.
pub fn cull(arena: &mut [u8]) -> Result<(), u8> {
    let culled = culled(&Graph::of(arena)?);
    for node in (0..culled.len()).filter(|&node| culled[node]) {
        arena[slot_at(node) + RECORD + FLAGS] |= CULLED;
    }
    Ok(())
}

/// For each node whether it is CULLED afterwards. "Culling goes children first, skips node 0, and does nothing with no
/// local root."
fn culled(graph: &Graph) -> Vec<bool> {
    let mut culled: Vec<bool> = graph.records.iter().map(|record| record.flags() & CULLED != 0).collect();
    if graph.local_root == 0 {
        return culled;
    }
    for node in walk(&graph.lists).into_iter().rev().filter(|&node| node > 0) {
        let busy = graph.lists[node].iter().any(|&child| !culled[child]);
        culled[node] |= !busy && !stays(graph, node);
    }
    culled
}

/// "Its arc is Root, its depth below introduction is 0, … or it has specs and isn't INERT. An Inherit in the local
/// root's stack is also not culled unless t's own path, taken back by t's depth below introduction, has prim count 1; t
/// is the node if authored, else R."
fn stays(graph: &Graph, node: usize) -> bool {
    let record = graph.records[node];
    let t = graph.origin_root(node);
    let introduced = back(graph.records[t].path, graph.depth_below(t));
    record.arc() == ROOT
        || graph.depth_below(node) == 0
        || (record.has_specs() == 1 && record.flags() & INERT == 0)
        || (graph.is_local_inherit(node) && prim_count(introduced) != Some(1))
}

/// Writes the erasable set, or answers the number of the question that fails.
pub fn erasable(arena: &[u8], set: &mut [u8]) -> Result<(), u8> {
    if set.len() != SET_BYTES {
        return Err(1);
    }
    let graph = Graph::of(arena)?;
    let mut reached = vec![false; graph.count()];
    let mut waiting: Vec<usize> = (0..graph.count()).filter(|&node| !is_marked(&graph, node)).collect();
    while let Some(node) = waiting.pop() {
        if !reached[node] {
            reached[node] = true;
            waiting.extend(graph.links(node));
        }
    }
    set.fill(0);
    set.iter_mut().zip(reached).for_each(|(byte, reached)| *byte = u8::from(!reached));
    Ok(())
}

/// "Marked: CULLED, no specs, depth below introduction not 0."
fn is_marked(graph: &Graph, node: usize) -> bool {
    let record = graph.records[node];
    record.flags() & CULLED != 0 && record.has_specs() == 0 && graph.depth_below(node) != 0
}
