//! Document 01, question 2: does an arena (there: a room) hold a graph?

use std::mem;

use crate::layout::*;
use crate::record::{Accepted, PARENT, Record};

type Slot = [u8; SLOT_BYTES];

/// Whether the arena holds a graph; one of another size does not. Bytes that its graph does not use are not looked at.
pub fn holds_graph(arena: &[u8]) -> bool {
    if arena.len() != ARENA_BYTES {
        return false;
    }
    let (header, slots) = arena.split_at(HEADER_BYTES);
    let (slots, _) = slots.as_chunks();
    let Some(slots) = slots.get(..u32_at(header, COUNT) as usize) else { return false };
    marks_right(header)
        && records_right(header, slots)
        && child_lists_right(slots)
        && (header[ORDERED] == 0 || order_right(slots))
}

/// Finalized needs ordered and excludes shallow, in an empty graph too.
fn marks_right(header: &[u8]) -> bool {
    let (ordered, finalized, shallow) = (header[ORDERED], header[FINALIZED], header[SHALLOW]);
    ordered <= 1 && finalized <= 1 && shallow <= 1 && (finalized == 0 || (ordered == 1 && shallow == 0))
}

/// Whether a snapshot could have these records, and what is kept beside them is what they give.
fn records_right(header: &[u8], slots: &[Slot]) -> bool {
    let mut accepted = Accepted::none();
    for slot in slots {
        let end = RECORD + usize::from(u16_at(slot, RECORD_LENGTH));
        let Some(record) = slot.get(RECORD..end).and_then(Record::new) else { return false };
        if accepted.add(record) != Ok(slot[PRIM_COUNT]) {
            return false;
        }
    }
    let local_root = slots.is_empty() || u32_at(header, LOCAL_ROOT) == accepted.local_root;
    local_root && (header[SHALLOW] == 1 || !accepted.shallow)
}

/// Whether each node but 0 stands once in its parent's child list. Lists of two parents share no node, and a list that
/// comes back to a node never ends; so it is enough that all of them end and that the nodes met are all but one.
fn child_lists_right(slots: &[Slot]) -> bool {
    let Some(root) = slots.first() else { return true };
    let mut left = slots.len() - 1;
    for (node, slot) in slots.iter().enumerate() {
        let mut last = INVALID;
        let mut child = u32_at(slot, FIRST_CHILD);
        while child != INVALID {
            let Some(slot) = slots.get(child as usize) else { return false };
            if left == 0 || u32_at(slot, RECORD + PARENT) as usize != node {
                return false;
            }
            left -= 1;
            last = child;
            child = u32_at(slot, NEXT_SIBLING);
        }
        if u32_at(slot, LAST_CHILD) != last {
            return false;
        }
    }
    left == 0 && u32_at(root, NEXT_SIBLING) == INVALID
}

/// Whether each node stands once in the order.
fn order_right(slots: &[Slot]) -> bool {
    let mut seen = [false; MAX_NODES];
    slots.iter().all(|slot| {
        let entry = u32_at(slot, ORDER_ENTRY) as usize;
        entry < slots.len() && !mem::replace(&mut seen[entry], true)
    })
}
