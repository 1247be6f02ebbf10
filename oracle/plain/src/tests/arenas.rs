//! Question 2.

use super::definitions;
use crate::arena::holds_graph;
use crate::layout::*;
use crate::random::Random;
use crate::samples::arenas::{Arena, EMPTY_MARKS};
use crate::samples::damaged_arenas::{KINDS, damage};
use crate::samples::graphs;
use crate::snapshot;

#[test]
fn the_empty_graph() {
    let mut arena = vec![0; ARENA_BYTES];
    assert!(holds_graph(&arena));
    arena[SHALLOW + 1..].fill(0xff);
    assert!(holds_graph(&arena));
    assert!(!holds_graph(&arena[1..]));
    assert!(!holds_graph(&[]));
}

#[test]
fn marks_of_the_empty_graph() {
    let mut arena = Arena::any(&mut Random::new(6));
    for (marks, holds) in EMPTY_MARKS {
        arena.empty(marks);
        assert_eq!(holds_graph(arena.bytes()), holds, "{marks:?}");
        assert_eq!(definitions::holds_graph(arena.bytes()), holds, "{marks:?}");
    }
}

/// An arena with this snapshot in it, over bytes of one value.
fn arena_of(nodes: &[graphs::Node], unused: u8) -> Vec<u8> {
    let mut arena = vec![unused; ARENA_BYTES];
    snapshot::read(&graphs::snapshot(nodes), &mut arena).expect("a graph that a snapshot may have");
    arena
}

#[test]
fn the_largest_graphs() {
    let mut random = Random::new(1);
    for _ in 0..6 {
        let nodes = graphs::crowded(&mut random, 0);
        let arena = arena_of(&nodes, 0xff);
        assert!(holds_graph(&arena));
        assert!(definitions::holds_graph(&arena));
    }
}

#[test]
fn one_byte_of_a_path_too_many() {
    let mut nodes = graphs::nodes(&mut Random::new(2), 3);
    graphs::fill_path_bytes(&mut nodes, MAX_PATH_BYTES);
    let mut arena = arena_of(&nodes, b'a');
    let length = slot_at(nodes.len() - 1) + RECORD_LENGTH + 1;
    assert!(holds_graph(&arena) && arena[length] < u8::MAX);
    arena[length] += 1;
    assert!(!holds_graph(&arena) && !definitions::holds_graph(&arena));
}

#[test]
fn every_byte_of_a_small_graph() {
    let mut random = Random::new(3);
    let mut arena = arena_of(&graphs::nodes(&mut random, 5), 0);
    for at in 0..slot_at(6) {
        let held = arena[at];
        for byte in [0, 1, 2, 3, 4, 5, 127, 255, held ^ 1, held.wrapping_add(1)] {
            arena[at] = byte;
            assert_eq!(holds_graph(&arena), definitions::holds_graph(&arena), "{at} {byte}");
        }
        arena[at] = held;
    }
}

#[test]
fn damaged_arenas() {
    let mut random = Random::new(4);
    let mut arena = Arena::any(&mut random);
    let mut held = vec![[0; 2]; KINDS.len()];
    for _ in 0..4_000 {
        arena.fill(&mut random);
        assert!(holds_graph(arena.bytes()), "a whole arena");
        for _ in 0..if arena.count() > 60 { 1 } else { 8 } {
            let kinds = damage(&mut arena, &mut random);
            let holds = holds_graph(arena.bytes());
            assert_eq!(holds, definitions::holds_graph(arena.bytes()), "{kinds:?}");
            kinds.iter().for_each(|&kind| held[kind][usize::from(holds)] += 1);
            arena.restore();
        }
    }
    for ((name, _), [not, held]) in KINDS.iter().zip(held) {
        assert!(not > 100, "{name}: {not} hold none, {held} a graph");
    }
}

#[test]
fn restored_arenas() {
    let mut random = Random::new(5);
    let mut arena = Arena::any(&mut random);
    for _ in 0..500 {
        arena.fill(&mut random);
        let before = arena.bytes().to_vec();
        damage(&mut arena, &mut random);
        assert_eq!(arena.is_changed(), arena.bytes() != before);
        arena.restore();
        assert!(arena.bytes() == before && !arena.is_changed());
    }
}
