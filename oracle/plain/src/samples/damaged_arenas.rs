//! Damage to arenas, by kind. Some of it leaves a graph.

use super::arenas::Arena;
use super::damaged_snapshots::change_letter;
use crate::layout::*;
use crate::random::Random;
use crate::record::{ARC, DEPTH, FIXED_BYTES, FLAGS, HAS_SPECS, ORIGIN, PARENT, ROOT};

/// One way to damage an arena. It is given one whose count is 1 to 1,024.
type Kind = fn(&mut Arena, &mut Random);

/// Each kind, by what it changes.
pub const KINDS: [(&str, Kind); 25] = [
    ("marks", marks),
    ("any byte that is used", used_byte),
    ("any byte that is not used", unused_byte),
    ("next sibling to another node", |arena, random| link(arena, random, NEXT_SIBLING)),
    ("first child to another node", |arena, random| link(arena, random, FIRST_CHILD)),
    ("last child to another node", |arena, random| link(arena, random, LAST_CHILD)),
    ("child list cut short", cut_list),
    ("child list into a cycle", close_list),
    ("tails of two child lists crossed", |arena, random| exchange_tails(arena, random, false)),
    ("tails of one child list exchanged", |arena, random| exchange_tails(arena, random, true)),
    ("link out of range", link_out_of_range),
    ("child moved to another list", move_child),
    ("parent", |arena, random| any_number(arena, random, RECORD + PARENT)),
    ("origin", |arena, random| any_number(arena, random, RECORD + ORIGIN)),
    ("order entry", |arena, random| any_number(arena, random, ORDER_ENTRY)),
    ("two order entries exchanged", exchange_entries),
    ("local root", |arena, random| arena.put_number(LOCAL_ROOT, node_or_not(arena, random))),
    ("arc Root, told to the header", root_arc),
    ("prim count", prim_count),
    ("count", count),
    ("count 0", empty),
    ("record length", record_length),
    ("path longer by a letter", lengthen_path),
    ("letter of a path", path_letter),
    ("arc, flags, has-specs or depth", small_field),
];

/// The kind that an empty graph can have too.
const MARKS: usize = 0;

/// Damages up to three places, and answers the kinds: their places in [`KINDS`].
pub fn damage(arena: &mut Arena, random: &mut Random) -> Vec<usize> {
    let wanted = random.pick(&[0, 1, 1, 1, 1, 1, 2, 2, 3]);
    let mut done = Vec::with_capacity(wanted);
    while done.len() < wanted && arena.count() <= MAX_NODES {
        let kind = if arena.count() == 0 { MARKS } else { random.below(KINDS.len()) };
        KINDS[kind].1(arena, random);
        done.push(kind);
    }
    done
}

/// Where the slot of some node begins.
fn any_slot(arena: &Arena, random: &mut Random) -> usize {
    slot_at(random.below(arena.count()))
}

/// The node whose slot begins there.
fn number_of(slot: usize) -> u32 {
    ((slot - HEADER_BYTES) / SLOT_BYTES) as u32
}

/// Where the slot of a node begins that has this link; if there is none, that of any node.
fn linked_slot(arena: &Arena, random: &mut Random, which: usize) -> usize {
    let count = arena.count();
    let start = random.below(count);
    let mut slots = (0..count).map(|at| slot_at((start + at) % count));
    slots.find(|slot| arena.number(slot + which) != INVALID).unwrap_or(slot_at(start))
}

/// Mostly a node's number; else one near the limits.
fn node_or_not(arena: &Arena, random: &mut Random) -> u32 {
    let count = arena.count() as u32;
    match random.below(5) {
        0 => random.pick(&[count, count + 1, 1_023, 1_024, 65_536, INVALID - 1, INVALID]),
        _ => random.below(arena.count()) as u32,
    }
}

fn used_byte(arena: &mut Arena, random: &mut Random) {
    let byte = random.byte();
    if random.one_in(8) {
        return arena.put(random.pick(&[0, 1, 2, 3, 4, 5, 6, 8, 9, 10, 11]), &[byte]);
    }
    let node = random.below(arena.count());
    let at = random.below(arena.used(node).len());
    arena.put(slot_at(node) + at, &[byte]);
}

/// A byte of the header, behind a record, or behind the last node.
fn unused_byte(arena: &mut Arena, random: &mut Random) {
    let node = random.below(arena.count());
    let (end, next) = (slot_at(node) + arena.used(node).len(), slot_at(node + 1));
    let (header, behind_nodes) = (random.between(12, HEADER_BYTES - 1), slot_at(arena.count()));
    let at = match random.below(4) {
        0 => random.pick(&[7, header]),
        1 if behind_nodes < ARENA_BYTES => random.between(behind_nodes, ARENA_BYTES - 1),
        _ if end < next => random.between(end, next - 1),
        _ => header,
    };
    arena.put(at, &[random.byte()]);
}

fn link(arena: &mut Arena, random: &mut Random, which: usize) {
    let to = random.below(arena.count()) as u32;
    arena.put_number(any_slot(arena, random) + which, to);
}

fn link_out_of_range(arena: &mut Arena, random: &mut Random) {
    let count = arena.count() as u32;
    let which = random.pick(&[FIRST_CHILD, LAST_CHILD, NEXT_SIBLING]);
    let to = random.pick(&[count, count + 1, 1_023, 1_024, 65_536, INVALID - 1]);
    arena.put_number(any_slot(arena, random) + which, to);
}

fn any_number(arena: &mut Arena, random: &mut Random, which: usize) {
    arena.put_number(any_slot(arena, random) + which, node_or_not(arena, random));
}

/// Ends a list early; in some, the last child then is the one that ends it.
fn cut_list(arena: &mut Arena, random: &mut Random) {
    let which = random.pick(&[NEXT_SIBLING, NEXT_SIBLING, FIRST_CHILD]);
    let slot = linked_slot(arena, random, which);
    arena.put_number(slot + which, INVALID);
    let parent = arena.number(slot + RECORD + PARENT) as usize;
    if random.one_in(2) && which == FIRST_CHILD {
        arena.put_number(slot + LAST_CHILD, INVALID);
    } else if random.one_in(2) && parent < MAX_NODES {
        arena.put_number(slot_at(parent) + LAST_CHILD, number_of(slot));
    }
}

/// Leads the last child of some node to its first, or to itself.
fn close_list(arena: &mut Arena, random: &mut Random) {
    let slot = linked_slot(arena, random, LAST_CHILD);
    let (first, last) = (arena.number(slot + FIRST_CHILD), arena.number(slot + LAST_CHILD));
    if (last as usize) < MAX_NODES {
        arena.put_number(slot_at(last as usize) + NEXT_SIBLING, random.pick(&[first, last]));
    }
}

/// Exchanges what follows two children, of one parent or of two. Changes nothing where there are no such children.
fn exchange_tails(arena: &mut Arena, random: &mut Random, one_parent: bool) {
    let slot = linked_slot(arena, random, NEXT_SIBLING);
    let parent = |slot: usize| arena.number(slot + RECORD + PARENT);
    let fits = |other: &usize| (parent(*other) == parent(slot)) == one_parent;
    let others: Vec<usize> = (1..arena.count()).map(slot_at).filter(fits).collect();
    if others.is_empty() {
        return;
    }
    let (one, other) = (slot + NEXT_SIBLING, random.pick(&others) + NEXT_SIBLING);
    let (after_one, after_other) = (arena.number(one), arena.number(other));
    arena.put_number(one, after_other);
    arena.put_number(other, after_one);
}

/// Takes a first child out of its list and puts it first into another, all links right. What may be wrong then is that
/// the new parent is not lower, or that the local root is not below node 0.
fn move_child(arena: &mut Arena, random: &mut Random) {
    let (from, to) = (linked_slot(arena, random, FIRST_CHILD), any_slot(arena, random));
    let child = arena.number(from + FIRST_CHILD);
    if child as usize >= MAX_NODES {
        return;
    }
    let slot = slot_at(child as usize);
    let next = arena.number(slot + NEXT_SIBLING);
    arena.put_number(from + FIRST_CHILD, next);
    if next == INVALID {
        arena.put_number(from + LAST_CHILD, INVALID);
    }
    let follows = arena.number(to + FIRST_CHILD);
    arena.put_number(slot + NEXT_SIBLING, follows);
    arena.put_number(to + FIRST_CHILD, child);
    if follows == INVALID {
        arena.put_number(to + LAST_CHILD, child);
    }
    arena.put_number(slot + RECORD + PARENT, number_of(to));
}

/// Makes some node the local root; there may be another, or its parent may not be node 0.
fn root_arc(arena: &mut Arena, random: &mut Random) {
    let slot = any_slot(arena, random);
    arena.put(slot + RECORD + ARC, &[ROOT]);
    arena.put_number(LOCAL_ROOT, number_of(slot));
}

fn exchange_entries(arena: &mut Arena, random: &mut Random) {
    let (one, other) = (any_slot(arena, random) + ORDER_ENTRY, any_slot(arena, random) + ORDER_ENTRY);
    let (first, second) = (arena.number(one), arena.number(other));
    arena.put_number(one, second);
    arena.put_number(other, first);
}

fn marks(arena: &mut Arena, random: &mut Random) {
    if random.one_in(2) {
        let bits = random.below(8) as u8;
        return arena.put(ORDERED, &[bits & 1, bits >> 1 & 1, bits >> 2]);
    }
    arena.put(random.pick(&[ORDERED, FINALIZED, SHALLOW]), &[random.pick(&[0, 1, 2, 255])]);
}

/// Of an empty graph, only the marks are used.
fn empty(arena: &mut Arena, random: &mut Random) {
    arena.put_number(COUNT, 0);
    if random.one_in(2) {
        return arena.put(ORDERED, &[0, 0, 0]);
    }
    marks(arena, random);
}

fn prim_count(arena: &mut Arena, random: &mut Random) {
    let at = any_slot(arena, random) + PRIM_COUNT;
    let changed = arena.bytes()[at].wrapping_add(random.pick(&[1, u8::MAX]));
    arena.put(at, &[changed]);
}

fn count(arena: &mut Arena, random: &mut Random) {
    let count = arena.count() as u32;
    let changed = random.pick(&[count - 1, count + 1, 1, 1_024, 1_025, 65_536, 65_536 + count, INVALID]);
    arena.put_number(COUNT, changed);
}

fn record_length(arena: &mut Arena, random: &mut Random) {
    let at = any_slot(arena, random) + RECORD_LENGTH;
    let length = u16_at(arena.bytes(), at);
    let changed = random.pick(&[length.wrapping_sub(1), length.wrapping_add(1), 27, 28, 282, 283, 301, 302, 65_535]);
    arena.put(at, &changed.to_be_bytes());
}

fn lengthen_path(arena: &mut Arena, random: &mut Random) {
    let slot = any_slot(arena, random);
    let length = u16_at(arena.bytes(), slot + RECORD_LENGTH);
    if usize::from(length) < SLOT_BYTES - RECORD {
        arena.put(slot + RECORD_LENGTH, &(length + 1).to_be_bytes());
        arena.put(slot + RECORD + usize::from(length), &[random.pick(b"aZ_9")]);
    }
}

fn path_letter(arena: &mut Arena, random: &mut Random) {
    let node = random.below(arena.count());
    let mut path = arena.used(node)[RECORD + FIXED_BYTES..].to_vec();
    change_letter(random, &mut path);
    arena.put(slot_at(node) + RECORD + FIXED_BYTES, &path);
}

fn small_field(arena: &mut Arena, random: &mut Random) {
    let record = any_slot(arena, random) + RECORD;
    match random.below(5) {
        0 => arena.put(record + ARC, &[random.pick(&[0, 1, 6, 7, 255])]),
        1 => arena.put(record + FLAGS, &[random.byte()]),
        2 => arena.put(record + HAS_SPECS, &[random.pick(&[0, 1, 2, 255])]),
        3 => arena.put(record + DEPTH, &random.pick(&[0u16, 1, 4, 65_535]).to_be_bytes()),
        _ => arena.put(record + DEPTH + 2, &[random.byte(), random.byte()]),
    }
}
