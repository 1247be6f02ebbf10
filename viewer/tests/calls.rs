//! Every function, on arguments that it accepts and on all kinds that it refuses; order.rs has more on the order.
mod common;

use std::cmp::Ordering::{Equal, Greater, Less};

use common::{arena_of, refused, refuses_to_order, ring};
use plain::arena::holds_graph;
use plain::random::Random;
use plain::samples::arenas::Arena;
use plain::samples::damaged_arenas::damage;
use plain::samples::damaged_snapshots::damaged;
use plain::samples::graphs::{Node, nodes, snapshot};
use plain::samples::strength::{large, random_pairs, small};
use plain::strength::Strength;
use viewer::*;

/// Whatever the numbers are; nothing changes.
fn refused_by_all(arena: &[u8], number: u32) {
    assert_eq!(refused(count(arena)), number);
    for (a, b) in [(0, 0), (1, 2), (u32::MAX, 0)] {
        assert_eq!(refused(compare_node_strength(arena, a, b)), number);
        assert_eq!(refused(compare_sibling_node_strength(arena, a, b)), number);
        assert_eq!(refused(order_entry(arena, a)), number);
    }
    assert_eq!(refused(strength_order(arena)), number);
    refuses_to_order(arena, number);
}

#[test]
fn the_ring() {
    let arena = arena_of(&ring());
    assert_eq!(count(&arena), Ok(6));
    for compare in [compare_node_strength, compare_sibling_node_strength] {
        for (a, b) in [(3, 4), (4, 5), (5, 3)] {
            assert_eq!((compare(&arena, a, b), compare(&arena, b, a)), (Ok(Less), Ok(Greater)));
        }
    }
    let stored = include_bytes!("../examples/ring.snapshot");
    assert_eq!(stored[..], snapshot(&ring()));
}

/// Selections as makers write them, empty or with `-` and `|`; others are refused.
#[test]
fn makers_selections() {
    let mut nodes = ring();
    nodes[2].path = b"/Cell{drive=}".to_vec();
    nodes[3].path = b"/Cell{drive=ac-400|b}".to_vec();
    let mut arena = arena_of(&nodes);
    assert_eq!((count(&arena), compare_sibling_node_strength(&arena, 3, 4)), (Ok(6), Ok(Less)));
    for path in ["/Cell{drive=.}", "/Cell-1", "/Cell{drive-1=}"] {
        nodes[3].path = path.into();
        assert_eq!(refused(read_snapshot(&mut arena, &snapshot(&nodes))), 5);
    }
}

#[test]
fn one_node_twice_and_ancestors() {
    let arena = arena_of(&ring());
    for node in 0..6 {
        assert_eq!(compare_node_strength(&arena, node, node), Ok(Equal));
        assert_eq!(compare_sibling_node_strength(&arena, node, node), Ok(Equal));
    }
    assert_eq!(compare_node_strength(&arena, 0, 5), Ok(Less));
    assert_eq!(compare_node_strength(&arena, 5, 1), Ok(Greater));
}

#[test]
fn wrong_sizes() {
    for size in [0, 1, 64, ARENA_BYTES - 1, ARENA_BYTES + 1] {
        let mut arena = vec![0; size];
        refused_by_all(&arena, 1);
        assert_eq!(refused(read_snapshot(&mut arena, &snapshot(&ring()))), 1);
        assert!(arena.iter().all(|&byte| byte == 0));
    }
}

#[test]
fn wrong_numbers() {
    assert_eq!(count(&empty_arena()), Ok(0));
    for compare in [compare_node_strength, compare_sibling_node_strength] {
        assert_eq!(refused(compare(&empty_arena(), 0, 0)), 3);
        let arena = arena_of(&ring());
        for number in [6, 7, 1_024, 65_536, u32::MAX] {
            assert_eq!((refused(compare(&arena, number, 0)), refused(compare(&arena, 0, number))), (4, 4));
        }
    }
    assert_eq!(refused(compare_sibling_node_strength(&arena_of(&ring()), 1, 2)), 8);
    assert_eq!(refused(compare_sibling_node_strength(&arena_of(&ring()), 0, 1)), 8);
}

#[test]
fn refusals_in_words() {
    let refusal = count(&[]).expect_err("a refusal");
    assert_eq!(refusal.to_string(), "refused 1: the arena has not 327,744 bytes");
}

/// Each is read or refused as the plain reader does it, and what is refused changes nothing.
#[test]
fn damaged_snapshots() {
    let mut random = Random::new(1);
    let mut arena: Vec<u8> = (0..ARENA_BYTES).map(|_| random.byte()).collect();
    let mut plainly = arena.clone();
    let mut accepted = 0;
    for _ in 0..4_000 {
        let size = random.below(9);
        let whole = nodes(&mut random, size);
        let bytes = if random.one_in(4) { snapshot(&whole) } else { damaged(&mut random, &whole) };
        let expected = plain::snapshot::read(&bytes, &mut plainly);
        let answer = read_snapshot(&mut arena, &bytes);
        assert_eq!(answer.map_err(Refusal::number), expected.map(|count| count as u32).map_err(u32::from));
        assert!(arena == plainly);
        accepted += usize::from(answer.is_ok());
    }
    assert!((500..3_500).contains(&accepted), "{accepted}");
    assert_eq!(refused(read_snapshot(&mut arena, &[])), 12);
}

/// Whatever the bytes are, each function answers, and as the check of the arena says.
#[test]
fn any_bytes_as_an_arena() {
    let mut random = Random::new(2);
    let mut arena = Arena::any(&mut random);
    refused_by_all(arena.bytes(), 2);
    for _ in 0..2_000 {
        arena.fill(&mut random);
        damage(&mut arena, &mut random);
        if holds_graph(arena.bytes()) {
            assert_eq!(count(arena.bytes()), Ok(arena.count() as u32));
        } else {
            refused_by_all(arena.bytes(), 2);
        }
    }
}

/// Every pair of small graphs, and many of large ones, as the plain reading of document 01 has it.
#[test]
fn random_graphs() {
    let mut random = Random::new(3);
    for _ in 0..2_000 {
        let nodes = small(&mut random);
        let all = (0..nodes.len() as u32).flat_map(|a| (0..nodes.len() as u32).map(move |b| (a, b)));
        compare_pairs(&nodes, all);
    }
    for _ in 0..10 {
        let nodes = large(&mut random);
        compare_pairs(&nodes, random_pairs(&nodes, 500).into_iter());
    }
}

fn compare_pairs(nodes: &[Node], pairs: impl Iterator<Item = (u32, u32)>) {
    let arena = arena_of(nodes);
    let plain = Strength::new(nodes);
    for (a, b) in pairs {
        let (x, y) = (a as usize, b as usize);
        assert_eq!(compare_node_strength(&arena, a, b), Ok(plain.of_nodes(x, y)));
        let siblings = compare_sibling_node_strength(&arena, a, b);
        if a == b || nodes[x].parent == nodes[y].parent {
            assert_eq!(siblings, Ok(plain.of_siblings(x, y).0));
        } else {
            assert_eq!(refused(siblings), 8);
        }
    }
}
