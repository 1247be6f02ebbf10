//! Reading snapshots.

use super::definitions;
use crate::arena::holds_graph;
use crate::layout::*;
use crate::random::Random;
use crate::samples::damaged_snapshots::damaged;
use crate::samples::graphs;
use crate::snapshot::{count, read};

#[test]
fn the_empty_snapshot() {
    let empty = [0, 0, 0, 3, 1, 0, 0];
    assert_eq!(graphs::snapshot(&[]), empty);
    assert_eq!(count(&empty), Ok(0));
    assert_eq!(count(&empty[..6]), Err(12));
    assert_eq!(count(&[]), Err(12));
}

/// Document 01's example: nodes 0 `/M`, 1 root site Root `/M`, 2 Reference `/R` and 3 Inherit `/C` under 1.
fn example() -> Vec<graphs::Node> {
    let node = |arc, parent, path: &str| graphs::Node {
        arc,
        parent,
        origin: parent,
        depth: 1,
        ..graphs::Node::reference(path.into())
    };
    let root = graphs::Node { flags: 1, ..node(0, INVALID, "/M") };
    vec![root, node(0, 0, "/M"), node(4, 1, "/R"), node(1, 1, "/C")]
}

#[test]
fn the_arena_of_the_example() {
    let mut arena = vec![7; ARENA_BYTES];
    assert_eq!(read(&graphs::snapshot(&example()), &mut arena), Ok(4));
    assert_eq!(arena[..13], [0, 0, 0, 4, 0, 0, 0, 7, 0, 0, 0, 1, 7]);
    let links = |node| [FIRST_CHILD, LAST_CHILD, NEXT_SIBLING].map(|link| u32_at(&arena, slot_at(node) + link));
    assert_eq!(links(0), [1, 1, INVALID]);
    assert_eq!(links(1), [2, 3, INVALID]);
    assert_eq!(links(2), [INVALID, INVALID, 3]);
    assert_eq!(links(3), [INVALID, INVALID, INVALID]);
    let slot = &arena[slot_at(2) + ORDER_ENTRY..slot_at(3)];
    assert_eq!(slot[..7], [7, 7, 7, 7, 1, 0, 29]);
    assert_eq!(slot[7..34], [4, 0, 0, 0, 0, 0, 0, 0, 0, 0, 0, 0, 0, 1, 0, 0, 0, 1, 0, 1, 0, 0, 0, 0, 0, 0, 1]);
    assert!(slot[34..].starts_with(b"/R\x07") && slot[36..].iter().all(|&byte| byte == 7));
    assert!(arena[slot_at(4)..].iter().all(|&byte| byte == 7));
    assert!(holds_graph(&arena));
}

#[test]
fn limits() {
    let mut random = Random::new(1);
    for more in [0, 1] {
        for _ in 0..6 {
            let nodes = graphs::crowded(&mut random, more);
            let expected = if more == 0 { Ok(nodes.len()) } else { Err(7) };
            assert_eq!(count(&graphs::snapshot(&nodes)), expected);
        }
    }
    assert_eq!(read(&graphs::snapshot(&example()), &mut [0; 64]), Err(1));
}

#[test]
fn grown_graphs_fit() {
    for size in [16, 64, 256, MAX_NODES] {
        let children = graphs::grown(size);
        let bytes: usize = children.iter().map(|(_, path)| path.len()).sum();
        assert!(children.len() == size - 1 && bytes / size >= 24 && bytes + 6 <= MAX_PATH_BYTES, "{size}: {bytes}");
    }
}

#[test]
fn damaged_snapshots() {
    let mut random = Random::new(2);
    let mut arena = vec![0; ARENA_BYTES];
    for _ in 0..20_000 {
        let size = random.below(8);
        let nodes = graphs::nodes(&mut random, size);
        assert_eq!(count(&graphs::snapshot(&nodes)), Ok(size));
        let bytes = damaged(&mut random, &nodes);
        assert_ne!(bytes, graphs::snapshot(&nodes));
        let counted = count(&bytes);
        assert_eq!(counted, definitions::read_snapshot(&bytes), "{bytes:?}");
        assert_eq!(read(&bytes, &mut arena), counted);
        assert!(holds_graph(&arena));
    }
}

#[test]
fn a_refused_read_changes_nothing() {
    let mut random = Random::new(3);
    let mut arena = vec![9; ARENA_BYTES];
    read(&graphs::snapshot(&example()), &mut arena).expect("the example");
    let before = arena.clone();
    for _ in 0..500 {
        let bytes = damaged(&mut random, &example());
        if count(&bytes).is_err() {
            assert!(read(&bytes, &mut arena).is_err());
            assert!(arena == before);
        }
    }
}
