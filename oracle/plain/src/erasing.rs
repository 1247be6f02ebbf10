//! Document 01, question 11 and erasing: the arena that is left.

use crate::culling::SET_BYTES;
use crate::graph::Graph;
use crate::layout::*;
use crate::order::{write_entries, write_links};
use crate::record::{ORIGIN, PARENT, ROOT};

/// Erases the nodes whose bytes are 1 and answers how many are kept; or answers the number of the question that fails,
/// and the arena is as it was. Bytes that the graph does not use keep what they had.
pub fn erase(arena: &mut [u8], set: &[u8]) -> Result<usize, u8> {
    if set.len() != SET_BYTES {
        return Err(1);
    }
    let before = arena.to_vec();
    let graph = Graph::of(&before)?;
    if !may_erase(&graph, set) {
        return Err(11);
    }
    let kept = Kept::by(&set[..graph.count()]);
    for &node in &kept.nodes {
        move_record(&before, arena, node, &kept);
    }
    let lists: Vec<Vec<usize>> = kept.nodes.iter().map(|&node| kept.among(&graph.lists[node])).collect();
    write_links(&lists, arena);
    write_entries(&graph.order.map_or(Vec::new(), |order| kept.among(&order)), arena);
    put_u32(arena, COUNT, kept.nodes.len() as u32);
    put_u32(arena, LOCAL_ROOT, kept.numbers[graph.local_root] as u32);
    Ok(kept.nodes.len())
}

/// "Does the erase set (a byte a node, 1 goes, 0 stays, none other below the count) spare Root arcs and every kept
/// node's parent and origin?"
fn may_erase(graph: &Graph, set: &[u8]) -> bool {
    (0..graph.count()).all(|node| match set[node] {
        0 => graph.links(node).all(|link| set[link] == 0),
        1 => graph.records[node].arc() != ROOT,
        _ => false,
    })
}

/// The nodes that stay, and for each node how many of them are below it: "renumbers the kept in order".
struct Kept {
    nodes: Vec<usize>,
    numbers: Vec<usize>,
}

impl Kept {
    fn by(set: &[u8]) -> Self {
        let nodes: Vec<usize> = (0..set.len()).filter(|&node| set[node] == 0).collect();
        let numbers = (0..set.len()).map(|node| nodes.iter().filter(|&&kept| kept < node).count()).collect();
        Self { nodes, numbers }
    }

    /// The new numbers of those in a list that stay.
    fn among(&self, list: &[usize]) -> Vec<usize> {
        let kept = list.iter().filter(|node| self.nodes.contains(node));
        kept.map(|&node| self.numbers[node]).collect()
    }
}

/// Puts a node's prim count and record into the slot of its new number, with the new numbers of its parent and origin.
/// Node 0 keeps none.
fn move_record(before: &[u8], arena: &mut [u8], node: usize, kept: &Kept) {
    let (from, to) = (slot_at(node), slot_at(kept.numbers[node]));
    let end = RECORD + usize::from(u16_at(before, from + RECORD_LENGTH));
    arena[to + PRIM_COUNT..to + end].copy_from_slice(&before[from + PRIM_COUNT..from + end]);
    for link in [RECORD + PARENT, RECORD + ORIGIN] {
        let number = u32_at(before, from + link);
        if let Some(&new) = kept.numbers.get(number as usize) {
            put_u32(arena, to + link, new as u32);
        }
    }
}
