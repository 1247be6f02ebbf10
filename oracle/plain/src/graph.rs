//! The graph in an arena, read byte by byte as docs/LAYOUT.md has it, and what document 01 says of its nodes.

use crate::arena::holds_graph;
use crate::layout::*;
use crate::path::prim_count;
use crate::record::{INHERIT, Record};

/// The records of an arena, the child lists that their links make, and the order if it is marked.
pub struct Graph<'a> {
    pub records: Vec<Record<'a>>,
    pub lists: Vec<Vec<usize>>,
    pub order: Option<Vec<usize>>,
    /// 0 where there is none.
    pub local_root: usize,
}

impl<'a> Graph<'a> {
    /// What the arena holds, or the number of the first of questions 1 to 3 that it fails.
    pub fn of(arena: &'a [u8]) -> Result<Self, u8> {
        if arena.len() != ARENA_BYTES {
            return Err(1);
        }
        let records = if holds_graph(arena) { records(arena) } else { None };
        let records = records.ok_or(2)?;
        if records.is_empty() {
            return Err(3);
        }
        let lists = (0..records.len()).map(|node| children(arena, node)).collect();
        let entries = || (0..records.len()).map(|place| u32_at(arena, slot_at(place) + ORDER_ENTRY) as usize).collect();
        let order = (arena[ORDERED] == 1).then(entries);
        Ok(Self { order, records, lists, local_root: u32_at(arena, LOCAL_ROOT) as usize })
    }

    pub fn count(&self) -> usize {
        self.records.len()
    }

    /// The parent and the origin of a node; node 0 has none.
    pub fn links(&self, node: usize) -> impl Iterator<Item = usize> {
        let links = [self.records[node].parent(), self.records[node].origin()];
        links.into_iter().filter(|&link| link != INVALID).map(|link| link as usize)
    }

    /// "The parent's prim count less the node's depth, at least 0; node 0 has 0."
    pub fn depth_below(&self, node: usize) -> usize {
        let Some(parent) = self.records.get(self.records[node].parent() as usize) else { return 0 };
        let prims = prim_count(parent.path).unwrap_or(0);
        usize::from(u16::from(prims).saturating_sub(self.records[node].depth()))
    }

    /// Whether the node is an Inherit in the local root's stack; there must be a local root.
    pub fn is_local_inherit(&self, node: usize) -> bool {
        let record = self.records[node];
        record.arc() == INHERIT && record.stack() == self.records[self.local_root].stack()
    }

    /// "R(n) follows origins until one equals the parent or is missing"; so it is the node itself if that is authored.
    pub fn origin_root(&self, node: usize) -> usize {
        let mut at = node;
        while self.records[at].origin() != self.records[at].parent() {
            at = self.records[at].origin() as usize;
        }
        at
    }
}

/// Nothing where a record's length is wrong.
fn records(arena: &[u8]) -> Option<Vec<Record<'_>>> {
    let record = |node| {
        let at = slot_at(node) + RECORD;
        let length = u16_at(arena, slot_at(node) + RECORD_LENGTH);
        arena.get(at..at + usize::from(length)).and_then(Record::new)
    };
    (0..u32_at(arena, COUNT) as usize).map(record).collect()
}

fn children(arena: &[u8], node: usize) -> Vec<usize> {
    let mut children = Vec::new();
    let mut child = u32_at(arena, slot_at(node) + FIRST_CHILD);
    while child != INVALID {
        children.push(child as usize);
        child = u32_at(arena, slot_at(child as usize) + NEXT_SIBLING);
    }
    children
}
