//! What the tests share.
use plain::layout::INVALID;
use plain::samples::graphs::{Node, snapshot};
use viewer::{Refusal, empty_arena, finalize_strength_order, read_snapshot};

/// An arena with the graph of these nodes.
pub fn arena_of(nodes: &[Node]) -> Vec<u8> {
    let mut arena = empty_arena();
    assert_eq!(read_snapshot(&mut arena, &snapshot(nodes)), Ok(nodes.len() as u32));
    arena
}

pub fn refused<T: std::fmt::Debug>(answer: Result<T, Refusal>) -> u32 {
    answer.expect_err("a refusal").number()
}

/// Ordering is refused with this number and changes nothing.
pub fn refuses_to_order(arena: &[u8], number: u32) {
    let mut copy = arena.to_vec();
    assert_eq!(refused(finalize_strength_order(&mut copy)), number);
    assert!(copy == arena);
}

/// Document 01's ring, as it is stored for the example.
pub fn ring() -> Vec<Node> {
    let node = |arc, flags, origin, depth, path: &str| Node {
        arc,
        flags,
        parent: 1,
        origin,
        depth,
        ..Node::reference(path.into())
    };
    vec![
        Node { parent: INVALID, origin: INVALID, ..node(0, 1, INVALID, 1, "/M") },
        Node { parent: 0, ..node(0, 0, 0, 1, "/M") },
        node(4, 0, 1, 1, "/R"),
        node(6, 8, 2, 1, "/S"),
        node(6, 8, 2, 3, "/T"),
        node(6, 0, 1, 2, "/U"),
    ]
}
