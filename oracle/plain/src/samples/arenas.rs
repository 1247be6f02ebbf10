//! Arenas with random graphs.

use std::collections::HashMap;

use super::graphs;
use crate::layout::*;
use crate::random::Random;
use crate::record::{FIXED_BYTES, PARENT};
use crate::snapshot;

/// Marks of an arena without a node, and whether it holds a graph: ordered, finalized and shallow in every combination,
/// then each with a byte that is none.
pub const EMPTY_MARKS: [([u8; 3], bool); 11] = [
    ([0, 0, 0], true),
    ([1, 0, 0], true),
    ([0, 1, 0], false),
    ([1, 1, 0], true),
    ([0, 0, 1], true),
    ([1, 0, 1], true),
    ([0, 1, 1], false),
    ([1, 1, 1], false),
    ([2, 0, 0], false),
    ([1, 2, 0], false),
    ([0, 0, 2], false),
];

/// An arena that remembers what it held before it was damaged.
pub struct Arena {
    bytes: Vec<u8>,
    /// Where bytes have been changed since, and what stood there.
    changed: Vec<(usize, u8)>,
}

impl Arena {
    /// Bytes that hold no graph yet: any bytes, since a graph leaves those that it does not use as they were.
    pub fn any(random: &mut Random) -> Self {
        Self { bytes: (0..ARENA_BYTES).map(|_| random.byte()).collect(), changed: Vec::new() }
    }

    pub fn bytes(&self) -> &[u8] {
        &self.bytes
    }

    /// The count that the header has. Where it is damaged, there may be no such slots.
    pub fn count(&self) -> usize {
        self.number(COUNT) as usize
    }

    /// A number in the arena.
    pub fn number(&self, at: usize) -> u32 {
        u32_at(&self.bytes, at)
    }

    /// Takes every node out and sets the marks, allowed or not. All other bytes stay.
    pub fn empty(&mut self, marks: [u8; 3]) {
        put_u32(&mut self.bytes, COUNT, 0);
        self.bytes[ORDERED..=SHALLOW].copy_from_slice(&marks);
        self.changed.clear();
    }

    /// Fills the arena with a random graph, mostly of few nodes, and with marks that it may have.
    pub fn fill(&mut self, random: &mut Random) {
        let count = match random.below(400) {
            0..=3 => 0,
            4..=10 => random.between(20, 60),
            _ => random.between(1, 12),
        };
        let nodes = if random.one_in(200) { graphs::crowded(random, 0) } else { graphs::nodes(random, count) };
        snapshot::read(&graphs::snapshot(&nodes), &mut self.bytes).expect("a graph that a snapshot may have");
        self.changed.clear();
        self.bytes[SHALLOW] |= u8::from(random.one_in(8));
        if random.one_in(2) {
            self.shuffle_children(random, nodes.len());
        }
        if random.one_in(2) {
            self.set_order(random, nodes.len());
        }
    }

    /// Links the children of every node in another order.
    fn shuffle_children(&mut self, random: &mut Random, count: usize) {
        let mut lists = vec![Vec::new(); count];
        for node in 1..count {
            lists[self.number(slot_at(node) + RECORD + PARENT) as usize].push(node as u32);
        }
        for (parent, list) in lists.iter_mut().enumerate() {
            shuffle(random, list);
            self.link_children(parent, list);
        }
    }

    fn link_children(&mut self, parent: usize, children: &[u32]) {
        let or_none = |child: Option<&u32>| child.copied().unwrap_or(INVALID);
        put_u32(&mut self.bytes, slot_at(parent) + FIRST_CHILD, or_none(children.first()));
        put_u32(&mut self.bytes, slot_at(parent) + LAST_CHILD, or_none(children.last()));
        for (at, &child) in children.iter().enumerate() {
            put_u32(&mut self.bytes, slot_at(child as usize) + NEXT_SIBLING, or_none(children.get(at + 1)));
        }
    }

    /// Any order, marked; finalized in some, unless the graph is shallow.
    fn set_order(&mut self, random: &mut Random, count: usize) {
        let mut order: Vec<u32> = (0..count as u32).collect();
        shuffle(random, &mut order);
        for (at, node) in order.into_iter().enumerate() {
            put_u32(&mut self.bytes, slot_at(at) + ORDER_ENTRY, node);
        }
        self.bytes[ORDERED] = 1;
        self.bytes[FINALIZED] = u8::from(self.bytes[SHALLOW] == 0 && random.one_in(2));
    }

    /// Changes bytes, until [`restore`](Self::restore).
    pub fn put(&mut self, at: usize, bytes: &[u8]) {
        for (at, &byte) in (at..).zip(bytes) {
            self.changed.push((at, self.bytes[at]));
            self.bytes[at] = byte;
        }
    }

    pub fn put_number(&mut self, at: usize, number: u32) {
        self.put(at, &number.to_be_bytes());
    }

    /// Whether some byte is another than before it was damaged.
    pub fn is_changed(&self) -> bool {
        let before: HashMap<usize, u8> = self.changed.iter().rev().copied().collect();
        before.iter().any(|(&at, &byte)| self.bytes[at] != byte)
    }

    /// Takes all changes back.
    pub fn restore(&mut self) {
        while let Some((at, byte)) = self.changed.pop() {
            self.bytes[at] = byte;
        }
    }

    /// The bytes of a slot that are used, as far as the slot goes.
    pub fn used(&self, node: usize) -> &[u8] {
        let slot = &self.bytes[slot_at(node)..][..SLOT_BYTES];
        &slot[..(RECORD + usize::from(u16_at(slot, RECORD_LENGTH))).clamp(RECORD + FIXED_BYTES, SLOT_BYTES)]
    }
}

/// Puts the items in another order, any of them.
pub fn shuffle<T>(random: &mut Random, items: &mut [T]) {
    for at in (1..items.len()).rev() {
        items.swap(at, random.below(at + 1));
    }
}
