//! The graphs that are culled: legal ones, in which every rule of culling has something to say.

use crate::arena::holds_graph;
use crate::culling::{SET_BYTES, cull, erasable};
use crate::erasing::erase;
use crate::layout::{ARENA_BYTES, MAX_NODES};
use crate::random::Random;
use crate::record::{CULLED, ROOT};
use crate::samples::culls::{CULLED_SHAPES, full, small};
use crate::samples::graphs::{Node, snapshot};
use crate::snapshot::read;

/// An arena with these nodes.
fn arena_of(nodes: &[Node]) -> Vec<u8> {
    let mut arena = vec![0; ARENA_BYTES];
    assert_eq!(read(&snapshot(nodes), &mut arena), Ok(nodes.len()));
    arena
}

#[test]
fn samples() {
    let mut random = Random::new(41);
    let is_culled = |node: &Node| node.flags & CULLED != 0;
    for at in 0..1_000 {
        let nodes = small(&mut random, at % 2 == 0);
        assert!(nodes.len() <= 20);
        assert_eq!(nodes.iter().any(is_culled), at % 2 == 0);
        arena_of(&nodes);
    }
    for at in 0..10 {
        let nodes = full(&mut random, MAX_NODES, at % 2 == 0);
        assert_eq!(nodes.len(), MAX_NODES);
        arena_of(&nodes);
    }
    let rootless = (0..1_000).filter(|_| small(&mut random, true).iter().skip(1).all(|node| node.arc != ROOT)).count();
    assert!((30..200).contains(&rootless), "{rootless}");
}

/// What is left is a graph, and nothing more may go from it.
#[test]
fn erasing_what_is_erasable() {
    let mut random = Random::new(42);
    let shapes = CULLED_SHAPES.map(|(_, shape)| shape(300));
    for nodes in (0..1_000).map(|at| small(&mut random, at % 2 == 0)).chain(shapes) {
        let mut arena = arena_of(&nodes);
        let mut set = vec![9; SET_BYTES];
        assert_eq!((cull(&mut arena), erasable(&arena, &mut set)), (Ok(()), Ok(())));
        let goes = set.iter().filter(|&&byte| byte == 1).count();
        assert_eq!(erase(&mut arena, &set), Ok(nodes.len() - goes));
        assert!(holds_graph(&arena));
        assert_eq!(erasable(&arena, &mut set), Ok(()));
        assert!(set.iter().all(|&byte| byte == 0));
    }
}
