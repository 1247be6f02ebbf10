//! Ordering and reading the order, on arguments that they accept and on all kinds that they refuse.
mod common;

use common::{arena_of, refused, refuses_to_order, ring};
use plain::arena::holds_graph;
use plain::layout::*;
use plain::order::{sorted, walk, write};
use plain::random::Random;
use plain::samples::arenas::{Arena, EMPTY_MARKS};
use plain::samples::damaged_arenas::damage;
use plain::samples::graphs::Node;
use plain::samples::strength::{SHAPES, large, small};
use viewer::*;

/// The entries of an ordered graph that the arena has.
fn entries(arena: &[u8]) -> Vec<u32> {
    let count = u32_at(arena, COUNT) as usize;
    (0..count).map(|place| u32_at(arena, slot_at(place) + ORDER_ENTRY)).collect()
}

/// The whole order, and each of its entries.
fn reads_order(arena: &[u8], order: &[u32]) {
    assert_eq!(strength_order(arena).as_deref(), Ok(order));
    for (place, &node) in (0..).zip(order) {
        assert_eq!(order_entry(arena, place), Ok(node));
    }
    for place in [order.len() as u32, 1_024, 65_536, u32::MAX] {
        assert_eq!(refused(order_entry(arena, place)), 4);
    }
}

/// Neither the whole order nor an entry.
fn reads_no_order(arena: &[u8], count: u32) {
    assert_eq!(refused(strength_order(arena)), 10);
    for place in [0, count - 1] {
        assert_eq!(refused(order_entry(arena, place)), 10);
    }
    for place in [count, u32::MAX] {
        assert_eq!(refused(order_entry(arena, place)), 4);
    }
}

#[test]
fn the_ring() {
    let arena = arena_of(&ring());
    refuses_to_order(&arena, 9);
    reads_no_order(&arena, 6);
    assert_eq!(sorted(&ring()), None);
}

/// Without one of its nodes the ring is none, and there is an order.
#[test]
fn the_ring_opened() {
    let mut arena = arena_of(&ring()[..5]);
    reads_no_order(&arena, 5);
    assert_eq!(finalize_strength_order(&mut arena), Ok(()));
    reads_order(&arena, &[0, 1, 2, 3, 4]);
}

#[test]
fn empty_graphs() {
    let mut arena = empty_arena();
    for (marks, holds) in EMPTY_MARKS {
        arena[ORDERED..=SHALLOW].copy_from_slice(&marks);
        refuses_for(&arena, if holds { 3 } else { 2 });
    }
}

/// Whatever is asked of the order is refused with this number.
fn refuses_for(arena: &[u8], refusal: u32) {
    refuses_to_order(arena, refusal);
    assert_eq!(refused(strength_order(arena)), refusal);
    for place in [0, 1, u32::MAX] {
        assert_eq!(refused(order_entry(arena, place)), refusal);
    }
}

/// A finalized graph stays as it is, though a child list has no order; one that is only ordered is asked again.
#[test]
fn finalized_graphs() {
    let mut nodes = ring();
    // no depth is beyond it, so that the graph is not shallow
    nodes[1].path = b"/M/N/O".to_vec();
    let mut arena = arena_of(&nodes);
    let order = [5, 3, 1, 0, 2, 4];
    for (place, &node) in order.iter().enumerate() {
        put_u32(&mut arena, slot_at(place) + ORDER_ENTRY, node);
    }
    arena[ORDERED] = 1;
    reads_order(&arena, &order);
    refuses_to_order(&arena, 9);
    arena[FINALIZED] = 1;
    let before = arena.clone();
    assert_eq!(finalize_strength_order(&mut arena), Ok(()));
    assert!(arena == before);
    reads_order(&arena, &order);
}

/// Reading a snapshot takes the order away.
#[test]
fn read_over_an_order() {
    let mut arena = arena_of(&ring()[..5]);
    assert_eq!(finalize_strength_order(&mut arena), Ok(()));
    assert_eq!(read_snapshot(&mut arena, include_bytes!("../examples/ring.snapshot")), Ok(6));
    reads_no_order(&arena, 6);
}

/// Every byte after ordering is as the plain reading has it, or as it was before. Answers whether it is finalized, and
/// none where there is no order.
fn orders(nodes: &[Node]) -> Option<bool> {
    let mut arena = arena_of(nodes);
    reads_no_order(&arena, nodes.len() as u32);
    let Some(lists) = sorted(nodes) else {
        refuses_to_order(&arena, 9);
        return None;
    };
    let mut expected = arena.clone();
    write(&lists, &mut expected);
    let order: Vec<u32> = walk(&lists).into_iter().map(|node| node as u32).collect();
    for _ in 0..2 {
        assert_eq!(finalize_strength_order(&mut arena), Ok(()));
        assert!(arena == expected);
        reads_order(&arena, &order);
    }
    Some(arena[FINALIZED] == 1)
}

#[test]
fn random_graphs() {
    let mut random = Random::new(4);
    let mut met = [0; 3];
    for _ in 0..2_000 {
        met[orders(&small(&mut random)).map_or(0, |finalized| 1 + usize::from(finalized))] += 1;
    }
    assert!(met.iter().all(|&times| times > 200), "{met:?}");
    for _ in 0..4 {
        orders(&large(&mut random));
    }
}

/// As many nodes as a graph may have; of long origins that takes too long.
#[test]
fn full_graphs() {
    let shapes = SHAPES.iter().filter(|(name, _)| *name != "origins");
    let found: Vec<_> = shapes.map(|(name, shape)| (*name, orders(&shape(MAX_NODES)))).collect();
    assert_eq!(found, [("chain", Some(true)), ("chains", Some(true)), ("star", Some(true)), ("mixed", None)]);
}

/// Whatever the bytes are, each function answers, and as the check of the arena and its marks say.
#[test]
fn any_bytes_as_an_arena() {
    let mut random = Random::new(5);
    let mut arena = Arena::any(&mut random);
    let mut met = [0; 3];
    for _ in 0..2_000 {
        arena.fill(&mut random);
        if random.one_in(2) {
            damage(&mut arena, &mut random);
        }
        let bytes = arena.bytes();
        if !holds_graph(bytes) {
            refuses_for(bytes, 2);
            met[0] += 1;
        } else if arena.count() == 0 {
            refuses_for(bytes, 3);
        } else if bytes[ORDERED] == 1 {
            reads_order(bytes, &entries(bytes));
            met[1] += 1;
        } else {
            reads_no_order(bytes, arena.count() as u32);
            met[2] += 1;
        }
    }
    assert!(met.iter().all(|&times| times > 200), "{met:?}");
}
