//! The comparison of strength: document 01's examples, and a graph for each line of its lists.

use std::cmp::Ordering::{Equal, Greater, Less};

use crate::layout::INVALID;
use crate::path::prim_count;
use crate::random::Random;
use crate::record::{HAS_SPECIALIZES, INHERIT, REFERENCE, RELOCATE, ROOT, SPECIALIZE};
use crate::samples::graphs::{Node, snapshot};
use crate::samples::strength::{SHAPES, large, random_pairs, sibling_pairs, small};
use crate::snapshot::read;
use crate::strength::{Line, Rule, Strength};

/// Node 0 and the local root, then the given nodes.
fn graph(children: &[Node]) -> Vec<Node> {
    let root = Node { arc: ROOT, flags: 1, parent: INVALID, origin: INVALID, ..Node::reference("/M".into()) };
    let local_root = Node { arc: ROOT, ..Node::reference("/M".into()) };
    [&[root, local_root], children].concat()
}

fn node(arc: u8, parent: u32, origin: u32, path: &str) -> Node {
    Node { arc, parent, origin, ..Node::reference(path.into()) }
}

/// A HAS_SPECIALIZES Specialize below the local root.
fn specialize(origin: u32, path: &str) -> Node {
    Node { flags: HAS_SPECIALIZES, ..node(SPECIALIZE, 1, origin, path) }
}

/// What the last two nodes are to each other; `line` settles them.
fn check(children: &[Node], line: Line, expected: std::cmp::Ordering) {
    let nodes = graph(children);
    let (a, b) = (nodes.len() - 2, nodes.len() - 1);
    let strength = Strength::new(&nodes);
    assert_eq!(strength.of_siblings(a, b), (expected, line));
    assert_eq!(strength.of_siblings(b, a), (expected.reverse(), line));
    assert_eq!(strength.of_nodes(a, b), expected);
}

#[test]
fn the_ring() {
    let nodes = graph(&[
        node(REFERENCE, 1, 1, "/R"),
        Node { depth: 1, ..specialize(2, "/S") },
        Node { depth: 3, ..specialize(2, "/T") },
        Node { depth: 2, ..node(SPECIALIZE, 1, 1, "/U") },
    ]);
    let strength = Strength::new(&nodes);
    for (a, b) in [(3, 4), (4, 5), (5, 3)] {
        assert_eq!((strength.of_nodes(a, b), strength.of_nodes(b, a)), (Less, Greater));
    }
    assert_eq!((strength.of_nodes(5, 5), strength.of_siblings(0, 0).0), (Equal, Equal));
    assert_eq!((strength.of_nodes(1, 5), strength.of_nodes(5, 0)), (Less, Greater));
}

#[test]
fn plain_siblings() {
    let reference = |depth, sibling| Node { depth, sibling, ..node(REFERENCE, 1, 1, "/R") };
    check(&[node(INHERIT, 1, 1, "/C"), reference(0, 0)], Line::Arc, Less);
    check(&[reference(1, 0), reference(2, 0)], Line::Depth, Greater);
    check(&[reference(0, 1), reference(0, 0)], Line::SiblingNumber, Greater);
    check(&[reference(0, 0), reference(0, 0)], Line::NodeNumber, Less);
    let origins = [node(REFERENCE, 1, 1, "/X"), node(INHERIT, 1, 1, "/Y")];
    check(
        &[&origins[..], &[node(REFERENCE, 1, 2, "/R"), node(REFERENCE, 1, 3, "/R")]].concat(),
        Line::Origins,
        Greater,
    );
}

#[test]
fn specializes_of_one_origin() {
    let rule = Line::Specializes;
    let authored = |sibling| Node { sibling, ..specialize(1, "/S") };
    check(&[authored(1), authored(0)], rule(Rule::AuthoredSiblingNumber), Greater);
    check(&[authored(0), authored(0)], rule(Rule::AuthoredNodeNumber), Less);
    let origin = node(REFERENCE, 1, 1, "/R");
    let copy = |sibling, path| Node { sibling, ..specialize(2, path) };
    check(&[origin.clone(), copy(0, "/R"), copy(0, "/S")], rule(Rule::Implied), Greater);
    check(&[origin, copy(1, "/S"), copy(0, "/T")], rule(Rule::NodeNumber), Less);
}

#[test]
fn specializes_of_two_roots() {
    let rule = Line::Specializes;
    let origins = [node(REFERENCE, 1, 1, "/X"), node(INHERIT, 1, 1, "/Y")];
    let copies = |depth| [specialize(2, "/S"), Node { depth, ..specialize(3, "/T") }];
    check(&[&origins[..], &copies(0)].concat(), rule(Rule::Roots), Greater);
    check(&[&origins[..], &copies(1)].concat(), rule(Rule::Depth), Greater);
    // Nested, so that the depth does not count: node 3 is below node 2.
    let nested = [node(REFERENCE, 1, 1, "/X"), node(INHERIT, 2, 2, "/Y")];
    check(&[&nested[..], &copies(1)].concat(), rule(Rule::Roots), Less);
}

#[test]
fn specializes_of_one_root() {
    let rule = Line::Specializes;
    let start = node(REFERENCE, 1, 1, "/R");
    let copies = |x, y| [specialize(3, x), specialize(4, y)];
    let with = |second: Node, third: Node, copies: [Node; 2]| {
        [start.clone(), second, third, copies[0].clone(), copies[1].clone()].to_vec()
    };
    let copy = |depth| Node { depth, ..node(REFERENCE, 1, 2, "/R") };
    check(&with(copy(2), copy(1), copies("/S", "/T")), rule(Rule::ClassDepth), Greater);
    check(&with(copy(0), node(REFERENCE, 1, 3, "/R"), copies("/S", "/T")), rule(Rule::Hops), Greater);
    check(&with(copy(0), copy(0), copies("/R", "/T")), rule(Rule::LocalImplied), Greater);
    check(&with(copy(0), copy(0), copies("/S", "/T")), rule(Rule::Origins), Less);
    let [x, y] = copies("/R", "/T");
    let elsewhere = [x, Node { stack: 1, ..y }];
    check(&with(copy(0), copy(0), elsewhere), rule(Rule::Origins), Less);
}

/// A class hierarchy is left upward over Relocates; a propagated node stands for its origin.
#[test]
fn class_depths() {
    let rule = Line::Specializes;
    let start = node(REFERENCE, 1, 1, "/R");
    let deep = Node { depth: 2, ..node(REFERENCE, 1, 1, "/D") };
    let relocate = Node { depth: 9, ..node(RELOCATE, 3, 3, "/E") };
    let class = Node { depth: 7, ..node(INHERIT, 4, 2, "/C") };
    let flat = Node { depth: 1, ..node(REFERENCE, 1, 2, "/R") };
    let classes = [start, deep, relocate, class, flat];
    let copies = [specialize(5, "/S"), specialize(6, "/T")];
    // The class of depth 7 leads to the Relocate of depth 9, and that to the Reference of depth 2.
    check(&[&classes[..], &copies].concat(), rule(Rule::ClassDepth), Greater);
}

/// The pairs that are counted as comparisons are of legal graphs, and large graphs have long chains of origins.
#[test]
fn samples() {
    let mut random = Random::new(7);
    let mut arena = vec![0; crate::layout::ARENA_BYTES];
    for _ in 0..1_000 {
        let nodes = small(&mut random);
        assert!(nodes.len() <= 20);
        assert_eq!(read(&snapshot(&nodes), &mut arena), Ok(nodes.len()));
    }
    let mut chains = Vec::new();
    for _ in 0..40 {
        let nodes = large(&mut random);
        assert!((200..=1_024).contains(&nodes.len()));
        assert_eq!(read(&snapshot(&nodes), &mut arena), Ok(nodes.len()));
        chains.push(longest_chain(&nodes));
    }
    assert!(chains.iter().filter(|&&length| length >= 100).count() >= 20, "{chains:?}");
    for (_, shape) in SHAPES {
        let nodes = shape(1_024);
        assert_eq!(read(&snapshot(&nodes), &mut arena), Ok(1_024));
        assert!(nodes.iter().all(|node| prim_count(&node.path).is_some()));
    }
}

/// The most origins that follow each other.
fn longest_chain(nodes: &[Node]) -> usize {
    let mut lengths = vec![0; nodes.len()];
    for (at, node) in nodes.iter().enumerate().skip(1) {
        lengths[at] = if node.origin == node.parent { 0 } else { lengths[node.origin as usize] + 1 };
    }
    lengths.into_iter().max().unwrap_or(0)
}

#[test]
fn measured_pairs() {
    let nodes = graph(&[node(REFERENCE, 1, 1, "/X"), node(REFERENCE, 1, 1, "/Y"), node(REFERENCE, 1, 1, "/Z")]);
    assert_eq!(sibling_pairs(&nodes, 1), [(2, 3), (2, 4), (3, 4)]);
    assert_eq!(sibling_pairs(&nodes, 7).len(), 9);
    assert!(sibling_pairs(&nodes[..2], 7).is_empty());
    assert_eq!(random_pairs(&nodes, 100), random_pairs(&nodes, 100));
    assert!(random_pairs(&nodes, 100).iter().all(|&(a, b)| a < 5 && b < 5));
}
