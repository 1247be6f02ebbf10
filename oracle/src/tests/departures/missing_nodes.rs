//! Nodes that are not there, in a graph and in the empty one.

use std::cmp::Ordering;

use super::{check, desc, path, started, stops};
use crate::pcp::layer_stack::LayerStackId;
use crate::pcp::prim_graph::{ArcType, NodeId, PrimIndexGraph};

/// It is node 0, but not the root: the graph has none, and what is added without a parent is no child of it.
#[test]
fn a_node_may_be_added_to_an_empty_graph_there() {
    let mut graph = PrimIndexGraph::default();
    let first = graph.add_child(NodeId::INVALID, desc(ArcType::Reference));
    let second = graph.add_child(NodeId::INVALID, desc(ArcType::Reference));
    assert_eq!((first, graph.root()), (NodeId(0), NodeId::INVALID));
    assert_eq!((graph.node(first).parent(), graph.node(second).parent()), (None, None));
    check("add - 4 0 0 0 - - 0 0 0 1 /A => refused 3");
}

#[test]
fn an_empty_graph_has_answers_there() {
    let graph = PrimIndexGraph::default();
    assert_eq!(graph.node_using_site(LayerStackId(0), &path("/A")), None);
    assert_eq!(graph.strength_order(), []);
    assert_eq!(graph.compare_node_strength(NodeId(0), NodeId(0)), Ordering::Equal);
    assert!(graph.is_ancestor_of(NodeId(0), NodeId(0)));
    check("using 0 /A => refused 3\nlist => refused 3\ncompare 0 0 => refused 3\nancestor 0 0 => refused 3");
}

#[test]
fn nodes_that_are_not_there_have_answers_there() {
    let graph = started("/A");
    let nine = NodeId(9);
    assert_eq!(graph.compare_node_strength(nine, nine), Ordering::Equal);
    assert!(!graph.is_ancestor_of(nine, NodeId(0)) && graph.is_ancestor_of(nine, nine));
    assert!(!graph.same_site(NodeId::INVALID, NodeId(0)) && !graph.same_site(NodeId::INVALID, NodeId::INVALID));
    check(
        "init 0 0 /A => 0
        compare 9 9 => refused 4
        ancestor 9 0 => refused 4
        ancestor 9 9 => refused 4
        site 4294967295 0 => refused 4
        site 4294967295 4294967295 => refused 4",
    );
}

/// A line on node N, and the Rust's call of it.
type OnNode = (&'static str, fn(&mut PrimIndexGraph, NodeId));

const ON_NODE: [OnNode; 13] = [
    ("sibling N N", |graph, id| _ = graph.compare_sibling_node_strength(id, id)),
    ("site N N", |graph, id| _ = graph.same_site(id, id)),
    ("propagated N", |graph, id| _ = graph.is_propagated_specializes(id)),
    ("copy N", |graph, id| _ = graph.get_propagated_specializes_node(id)),
    ("class N", |graph, id| _ = graph.starting_node_of_class_hierarchy(id)),
    ("below N", |graph, id| _ = graph.depth_below_introduction(id)),
    ("intro N", |graph, id| _ = graph.path_at_introduction(id)),
    ("due N", |graph, id| _ = graph.is_due_to_ancestor(id)),
    ("introduced N", |graph, id| _ = graph.intro_path(id)),
    ("mark N 1", |graph, id| graph.mark(id, crate::flags::from_byte(1))),
    ("spec N -", |graph, id| graph.set_first_spec(id, None)),
    ("specs N 1", |graph, id| graph.set_has_specs(id, true)),
    ("restrict N 1", |graph, id| graph.set_restriction_depth(id, 1)),
];

#[test]
fn a_node_that_is_not_there_stops_other_calls_there() {
    for (line, call) in ON_NODE {
        let mut graph = started("/A");
        assert!(!stops(|| call(&mut graph, NodeId(0))), "{line}");
        assert!(stops(|| call(&mut graph, NodeId(1))), "{line}");
        assert!(stops(|| call(&mut PrimIndexGraph::default(), NodeId(0))), "{line}");
        check(&format!("init 0 0 /A => 0\n{} => refused 4", line.replace('N', "1")));
        check(&format!("{} => refused 3", line.replace('N', "0")));
    }
}

#[test]
#[should_panic(expected = "index out of bounds")]
fn a_node_that_is_not_there_stops_a_comparison_there() {
    check("init 0 0 /A => 0\ncompare 0 1 => refused 4");
    started("/A").compare_node_strength(NodeId(0), NodeId(1));
}

#[test]
#[should_panic(expected = "index out of bounds")]
fn a_parent_that_is_not_there_stops_adding_there() {
    check("init 0 0 /A => 0\nadd 1 4 0 0 0 - - 0 0 0 1 /A => refused 4");
    started("/A").add_child(NodeId(1), desc(ArcType::Reference));
}

/// The number is the only way there to say that a parent is missing; here `-` says it.
#[test]
fn no_node_as_a_parent_is_a_missing_one_there() {
    let mut graph = started("/A");
    let node = graph.add_child(NodeId::INVALID, desc(ArcType::Reference));
    assert_eq!(graph.node(node).parent(), Some(NodeId(0)));
    check("init 0 0 /A => 0\nadd 4294967295 4 0 0 0 - - 0 0 0 1 /A => refused 4\nadd - 4 0 0 0 - - 0 0 0 1 /A => 1");
}

/// No node as an origin is taken too: the node has a parent and no origin, as node 0 alone has here.
#[test]
fn any_origin_is_taken_there() {
    for (origin, stored) in [(NodeId::INVALID, None), (NodeId(9), Some(NodeId(9))), (NodeId(1), Some(NodeId(1)))] {
        let mut graph = started("/A");
        let mut described = desc(ArcType::Reference);
        described.origin = Some(origin);
        let node = graph.add_child(NodeId(0), described);
        assert_eq!((graph.node(node).parent(), graph.node(node).origin()), (Some(NodeId(0)), stored));
        check(&format!("init 0 0 /A => 0\nadd 0 4 0 0 0 {} - 0 0 0 1 /A => refused 4", origin.0));
    }
}
