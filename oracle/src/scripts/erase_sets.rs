//! Sets to be erased that are not the erasable set, of which question 11 accepts some.

use plain::layout::MAX_NODES;
use plain::random::Random;

use crate::pcp::prim_graph::{ArcType, NodeId, PrimIndexGraph};

/// Any set, one that spares what it must but for a Root arc, or the erasable set with a digit changed or added.
pub fn another_set(random: &mut Random, graph: &PrimIndexGraph, erasable: &[u8]) -> Vec<u8> {
    let mut set = erasable.to_vec();
    let at = random.below(set.len());
    match random.below(8) {
        0 => set.iter_mut().for_each(|digit| *digit = random.pick(b"0001")),
        1 => set[at] = random.pick(b"29"),
        2 => set.extend(random.pick(&[&b"1"[..], b"2", b"0019"])),
        3 => set.truncate(at.max(1)),
        4 => set[root(random, graph)] = b'1',
        5 => set[at] ^= 1,
        _ => set = closed_set(graph, at),
    }
    set.truncate(MAX_NODES);
    set
}

/// Node 0 or the local root.
fn root(random: &mut Random, graph: &PrimIndexGraph) -> usize {
    let local_root = graph.local_root().valid();
    let roots = [0, local_root.map_or(0, |root| root.idx())];
    random.pick(&roots)
}

/// The node and all that reach it by parent and origin steps. A Root arc is left out, and what reaches it only by that.
fn closed_set(graph: &PrimIndexGraph, node: usize) -> Vec<u8> {
    let mut set = Vec::new();
    for other in graph.nodes() {
        let goes = |link: Option<NodeId>| link.is_some_and(|link| set[link.idx()] == b'1');
        let reaches = other.id().idx() == node || goes(other.parent()) || goes(other.origin());
        let digit = if reaches && other.arc() != ArcType::Root { b'1' } else { b'0' };
        set.push(digit);
    }
    set
}
