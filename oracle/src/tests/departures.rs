//! Where document 01 departs from the Rust: the smallest input of each departure, and what the Rust does with it when
//! it is asked directly.

mod fields;
mod functions;
mod missing_nodes;

use std::cmp::Ordering;
use std::panic::{AssertUnwindSafe, catch_unwind};

use super::check;
use crate::calls::Calls;
use crate::pcp::LayerId;
use crate::pcp::layer_stack::LayerStackId;
use crate::pcp::mapping::MapFunction;
use crate::pcp::prim_graph::{ArcType, NodeDesc, NodeFlags, NodeId, PrimIndexGraph};
use crate::sdf::Path;

fn path(text: &str) -> Path {
    Path::parse(text.as_bytes()).expect("a well-formed path")
}

fn desc(arc: ArcType) -> NodeDesc {
    NodeDesc::new(LayerStackId(0), LayerId(0), path("/A"), arc, MapFunction::identity())
}

fn started(at: &str) -> PrimIndexGraph {
    let mut graph = PrimIndexGraph::default();
    graph.init_root(LayerStackId(0), LayerId(0), path(at));
    graph
}

/// Whether the call panics.
fn stops(call: impl FnOnce()) -> bool {
    catch_unwind(AssertUnwindSafe(call)).is_err()
}

#[test]
fn several_root_arcs_may_be_added_there() {
    let mut graph = started("/A");
    let first = graph.add_child(NodeId(0), desc(ArcType::Root));
    graph.add_child(NodeId(0), desc(ArcType::Root));
    graph.add_child(first, desc(ArcType::Root));
    assert_eq!((graph.len(), graph.local_root()), (4, first));
    check("init 0 0 /A => 0\nadd 0 0 0 0 0 - - 0 0 0 1 /A => 1\nadd 0 0 0 0 0 - - 0 0 0 1 /A => refused 6");
    check("init 0 0 /A => 0\nadd 0 4 0 0 0 - - 0 0 0 1 /A => 1\nadd 1 0 0 0 0 - - 0 0 0 1 /A => refused 6");
}

#[test]
fn deepening_by_no_name_does_nothing_there() {
    for child in ["/", "/A{v=x}"] {
        let mut graph = started("/A");
        graph.append_child_name_to_all_sites(&path(child));
        assert_eq!(graph.node(NodeId(0)).path(), &path("/A"));
        check(&format!("init 0 0 /A => 0\ndeepen {child} => refused 5"));
    }
}

#[test]
fn seeding_by_no_name_copies_there() {
    for child in ["/", "/A{v=x}"] {
        let seeded = started("/A").seed_child(&path(child));
        assert_eq!((seeded.len(), seeded.node(NodeId(0)).path()), (1, &path("/A")));
        check(&format!("init 0 0 /A => 0\nseed {child} => refused 5"));
    }
}

/// Which names a site cannot take is the path type's to say: here the stand-in's, which has 255 bytes.
#[test]
fn a_site_that_cannot_take_the_name_keeps_its_path_there() {
    let longest = format!("/{}", "a".repeat(254));
    let mut graph = started(&longest);
    graph.append_child_name_to_all_sites(&path("/b"));
    assert_eq!(graph.node(NodeId(0)).path(), &path(&longest));
    check(&format!("init 0 0 {longest} => 0\ndeepen /b => refused 7"));
}

#[test]
fn an_order_that_was_never_made_can_be_read_there() {
    assert_eq!(started("/A").strength_order(), []);
    check("init 0 0 /A => 0\nlist => refused 10");
}

/// Where another graph shares the order, the one that is added to has an empty one.
#[test]
fn a_stale_order_can_be_read_there() {
    let mut graph = started("/A");
    graph.finalize_strength_order();
    let mut seeded = graph.seed_child(&path("/b"));
    seeded.add_child(NodeId(0), desc(ArcType::Reference));
    assert_eq!(seeded.strength_order(), []);
    graph.add_child(NodeId(0), desc(ArcType::Reference));
    assert_eq!(graph.strength_order(), [NodeId(0)]);
    check("init 0 0 /A => 0\norder => ok\nadd 0 4 0 0 0 - - 0 0 0 1 /A => 1\nlist => refused 10");
}

#[test]
fn deepening_a_shallow_graph_leaves_its_order_to_be_read_there() {
    let mut graph = started("/A");
    let mut beyond = desc(ArcType::Reference);
    beyond.namespace_depth = Some(2);
    graph.add_child(NodeId(0), beyond);
    graph.finalize_strength_order();
    graph.append_child_name_to_all_sites(&path("/b"));
    let seeded = graph.seed_child(&path("/c"));
    assert_eq!([graph.strength_order(), seeded.strength_order()], [[NodeId(0), NodeId(1)]; 2]);
    for word in ["deepen", "seed"] {
        check(&format!(
            "init 0 0 /A => 0
            add 0 4 0 0 0 - 2 0 0 0 1 /A => 1
            order => ok
            list => 0 1
            {word} /b => ok
            list => refused 10"
        ));
    }
}

#[test]
fn a_graph_has_no_limit_there() {
    let mut graph = started("/A");
    for _ in 1..=1_024 {
        graph.add_child(NodeId(0), desc(ArcType::Reference));
    }
    assert_eq!(graph.len(), 1_025);
    let add = "add 0 4 0 0 0 - - 0 0 0 1 /A";
    let added: Vec<String> = (1..1_024).map(|node| format!("{add} => {node}")).collect();
    check(&format!("init 0 0 /A => 0\n{}\n{add} => refused 7", added.join("\n")));
}

#[test]
fn paths_have_no_limit_together_there() {
    let longest = format!("/{}", "a".repeat(254));
    let mut graph = started(&longest);
    for _ in 1..=128 {
        let mut long = desc(ArcType::Reference);
        long.path = path(&longest);
        graph.add_child(NodeId(0), long);
    }
    assert_eq!(graph.nodes().map(|node| node.path().as_str().len()).sum::<usize>(), 32_895);
    let add = format!("add 0 4 0 0 0 - - 0 0 0 1 {longest}");
    let added: Vec<String> = (1..=127).map(|node| format!("{add} => {node}")).collect();
    check(&format!("init 0 0 {longest} => 0\n{}\n{add} => refused 7", added.join("\n")));
}

/// The set has a digit for each node: none.
#[test]
fn an_empty_graph_is_left_as_it_is_there() {
    let mut graph = PrimIndexGraph::default();
    graph.cull_subtrees_without_opinions();
    graph.append_child_name_to_all_sites(&path("/b"));
    assert_eq!((graph.erasable(), graph.erase(&[])), (vec![], 0));
    assert!(graph.is_empty() && graph.seed_child(&path("/b")).is_empty());
    check(
        "cull => refused 3\nerasable => refused 3\nerase 0 => refused 3\ndeepen /b => refused 3\nseed /b => refused 3",
    );
}

#[test]
fn any_two_nodes_are_siblings_there() {
    let mut graph = started("/A");
    let child = graph.add_child(NodeId(0), desc(ArcType::Reference));
    assert_eq!(graph.compare_sibling_node_strength(NodeId(0), child), Ordering::Less);
    check("init 0 0 /A => 0\nadd 0 4 0 0 0 - - 0 0 0 1 /A => 1\nsibling 0 1 => refused 8");
}

#[test]
fn ordering_an_empty_graph_returns_there() {
    PrimIndexGraph::default().finalize_strength_order();
    check("order => refused 3");
}

#[test]
fn erasing_answers_the_nodes_copied_there() {
    let mut graph = started("/A");
    assert_eq!(graph.erase(&[false]), 0);
    let shared = graph.clone();
    assert_eq!(graph.erase(&[false]), shared.len());
    check("init 0 0 /A => 0\nerase 0 => 1");
}

#[test]
fn a_set_has_a_value_for_each_node_there() {
    for (line, set) in [("erase 0", &[false; 1][..]), ("erase 000", &[false; 3])] {
        let mut graph = started("/A");
        graph.add_child(NodeId(0), desc(ArcType::Reference));
        assert!(stops(|| _ = graph.erase(set)));
        check(&format!("init 0 0 /A => 0\nadd 0 4 0 0 0 - - 0 0 0 1 /A => 1\n{line} => 2"));
    }
}

#[test]
fn a_root_arc_may_be_erased_there() {
    let mut graph = started("/A");
    graph.add_child(NodeId(0), desc(ArcType::Root));
    graph.erase(&[false, true]);
    assert_eq!((graph.len(), graph.local_root()), (1, NodeId::INVALID));
    check("init 0 0 /A => 0\nadd 0 0 0 0 0 - - 0 0 0 1 /A => 1\nerase 01 => refused 11\nerase 1 => refused 11");
}

/// With its assertions the Rust panics.
#[cfg(not(debug_assertions))]
#[test]
fn a_kept_origin_may_be_erased_there() {
    let mut graph = started("/A");
    let origin = graph.add_child(NodeId(0), desc(ArcType::Reference));
    let mut copy = desc(ArcType::Reference);
    copy.origin = Some(origin);
    graph.add_child(NodeId(0), copy);
    graph.erase(&[false, true, false]);
    assert_eq!((graph.len(), graph.node(NodeId(1)).origin()), (2, None));
    check(
        "init 0 0 /A => 0
        add 0 4 0 0 0 - - 0 0 0 1 /A => 1
        add 0 4 0 0 0 1 - 0 0 0 1 /A => 2
        erase 010 => refused 11",
    );
}

/// What is read is a graph that the Rust's own calls make of the same records: the order that was written is gone.
#[test]
fn a_snapshot_is_read_as_a_graph_with_its_records() {
    let mut graph = started("/A");
    let added = [ArcType::Reference, ArcType::Inherit].map(|arc| graph.add_child(NodeId(0), desc(arc)));
    let mut calls = Calls::default();
    let mut answer = |line: &str| calls.answer(line.as_bytes()).text();
    for line in ["init 0 0 /A", "add 0 4 0 0 0 - - 0 0 0 1 /A", "add 0 1 0 0 0 - - 0 0 0 1 /A", "order"] {
        answer(line);
    }
    assert_eq!(answer("chains"), "2,1;;");
    let written = answer("write");
    assert_eq!([answer(&format!("read {written}")), answer("marks")], ["3", "0 0 0"]);
    let read = calls.current().graph();
    assert!(read.children(NodeId(0)).eq(added) && graph.children(NodeId(0)).eq(added));
    assert!(read.nodes().zip(graph.nodes()).all(|(a, b)| format!("{a:?}") == format!("{b:?}")));
}

/// Ordering the cycle is never asked of the Rust: its sort may panic. Comparing is, and gives the cycle.
#[test]
fn siblings_may_go_in_a_cycle_there() {
    let mut graph = started("/M");
    let root = graph.add_child(NodeId::INVALID, desc(ArcType::Root));
    let reference = graph.add_child(root, desc(ArcType::Reference));
    let mut specialize = |origin, depth, flags| {
        let mut desc = desc(ArcType::Specialize);
        (desc.origin, desc.namespace_depth, desc.flags) = (origin, Some(depth), flags);
        graph.add_child(root, desc)
    };
    let first = specialize(Some(reference), 1, NodeFlags::HAS_SPECIALIZES);
    let second = specialize(Some(reference), 3, NodeFlags::HAS_SPECIALIZES);
    let third = specialize(None, 2, NodeFlags::empty());
    for (stronger, weaker) in [(first, second), (second, third), (third, first)] {
        assert_eq!(graph.compare_sibling_node_strength(stronger, weaker), Ordering::Less);
    }
    check(
        "init 0 0 /M => 0
        add - 0 0 0 0 - - 0 0 0 1 /A => 1
        add 1 4 0 0 0 - - 0 0 0 1 /A => 2
        add 1 6 8 0 0 2 1 0 0 0 1 /A => 3
        add 1 6 8 0 0 2 3 0 0 0 1 /A => 4
        add 1 6 0 0 0 - 2 0 0 0 1 /A => 5
        compares => ELLLLL GELLLL GGELLL GGGELG GGGGEL GGGLGE
        order => refused 9",
    );
}
