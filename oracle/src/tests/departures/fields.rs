//! Flags and other fields of a node.

use std::cmp::Ordering;

use super::{check, desc, path, started, stops};
use crate::pcp::LayerId;
use crate::pcp::layer_stack::LayerStackId;
use crate::pcp::prim_graph::{ArcType, NodeFlags, NodeId};

#[test]
fn culled_may_be_added_there() {
    let mut graph = started("/A");
    let mut culled = desc(ArcType::Reference);
    culled.flags = NodeFlags::CULLED;
    let node = graph.add_child(NodeId(0), culled);
    assert!(graph.node(node).is_culled());
    check("init 0 0 /A => 0\nadd 0 4 2 0 0 - - 0 0 0 1 /A => refused 6");
}

#[test]
fn culled_may_stand_on_a_root_arc_there() {
    let mut graph = started("/A");
    let mut culled = desc(ArcType::Root);
    culled.flags = NodeFlags::CULLED;
    let root = graph.add_child(NodeId(0), culled);
    assert!(graph.node(root).is_culled());
    let node_0 = format!("001d0001{:016}{:f>16}{:018}2f41", 0, "", 0);
    check(&format!("read 00000041010002{node_0}001d0002{:050}2f41 => refused 6", 0));
    check(&format!("read 00000041010002{node_0}001d0000{:050}2f41 => 2", 0));
}

#[test]
fn culled_may_be_marked_on_a_root_arc_there() {
    let mut graph = started("/A");
    let root = graph.add_child(NodeId(0), desc(ArcType::Root));
    for id in [NodeId(0), root] {
        graph.mark(id, NodeFlags::CULLED);
        assert!(graph.node(id).is_culled());
    }
    check("init 0 0 /A => 0\nadd 0 0 0 0 0 - - 0 0 0 1 /A => 1\nmark 0 2 => refused 6\nmark 1 2 => refused 6");
}

/// With its assertions the Rust stops. Without them the flag is shown, and comparisons do not see it: they read those
/// that the arc was added with. Both siblings have one origin, so with the flag the deeper one is the weaker.
#[test]
fn a_flag_of_the_arc_may_be_marked_there() {
    let marked = |added: NodeFlags| {
        let mut graph = started("/A");
        let reference = graph.add_child(NodeId(0), desc(ArcType::Reference));
        let siblings = [1, 3].map(|depth| {
            let mut copy = desc(ArcType::Specialize);
            (copy.origin, copy.namespace_depth, copy.flags) = (Some(reference), Some(depth), added);
            graph.add_child(NodeId(0), copy)
        });
        let stopped = siblings.map(|id| stops(|| graph.mark(id, NodeFlags::HAS_SPECIALIZES)));
        assert_eq!(stopped, [cfg!(debug_assertions); 2]);
        let shown = siblings.map(|id| graph.node(id).flags().contains(NodeFlags::HAS_SPECIALIZES));
        (shown[0], graph.compare_sibling_node_strength(siblings[0], siblings[1]))
    };
    assert_eq!(marked(NodeFlags::empty()), (!cfg!(debug_assertions), Ordering::Greater));
    assert_eq!(marked(NodeFlags::HAS_SPECIALIZES), (true, Ordering::Less));
    check("init 0 0 /A => 0\nadd 0 4 0 0 0 - - 0 0 0 1 /A => 1\nmark 1 8 => refused 6");
}

#[test]
fn spec_from_reads_0_without_specs_there() {
    let mut graph = started("/A");
    let mut without_specs = desc(ArcType::Reference);
    (without_specs.has_specs, without_specs.spec_from) = (false, 5);
    let node = graph.add_child(NodeId(0), without_specs);
    assert_eq!(graph.node(node).spec_from(), 0);
    check(
        "init 0 0 /A => 0
        add 0 4 0 0 0 - - 0 0 5 0 /A => 1
        dump => 0,1,0,0,-,-,1,0,0,0,1,/A;4,0,0,0,0,0,1,0,0,5,0,/A",
    );
}

/// Node 0 has the depth of its first path there, its sibling number is 0, and it has none of the arc's flags: no call
/// sets these three, so its depth is never above the prim count.
#[test]
fn three_fields_of_node_0_cannot_be_set_there() {
    let mut graph = started("/A/B");
    graph.mark(NodeId(0), NodeFlags::INERT | NodeFlags::CULLED | NodeFlags::PROHIBITED_CHILDREN);
    graph.set_first_spec(NodeId(0), Some(5));
    graph.set_restriction_depth(NodeId(0), 5);
    graph.append_child_name_to_all_sites(&path("/c"));
    let root = graph.node(NodeId(0));
    assert_eq!((root.namespace_depth(), root.path().prim_element_count()), (2, 3));
    assert_eq!((root.sibling_num_at_origin(), root.flags().contains(NodeFlags::HAS_SPECIALIZES)), (0, false));
    check(&format!(
        "read 00000022010001001d0009{:016}{:f>16}0009000700000000012f41 => 1
        dump => 0,9,0,0,-,-,9,7,0,0,1,/A",
        0, ""
    ));
}

/// INERT, CULLED, PROHIBITED_CHILDREN and HAS_SPECIALIZES; here the upper four bits mean nothing.
#[test]
fn flags_have_other_bits_there() {
    let named = [NodeFlags::INERT, NodeFlags::CULLED, NodeFlags::PROHIBITED_CHILDREN, NodeFlags::HAS_SPECIALIZES];
    assert_eq!(named, [1, 2, 32, 256].map(NodeFlags::from_bits_retain));
    check(
        "init 0 0 /A => 0
        add 0 4 252 0 0 - - 0 0 0 1 /R => 1
        using 0 /R => 1
        mark 1 2 => ok
        using 0 /R => -
        dump => 0,1,0,0,-,-,1,0,0,0,1,/A;4,254,0,0,0,0,1,0,0,0,1,/R",
    );
}

/// Numbers that no value of the Rust's types has; only the answers here can be tested.
#[test]
fn numbers_that_cannot_be_said_there() {
    check(
        "init 0 0 /A => 0
        add 0 7 0 0 0 - - 0 0 0 1 /A => refused 6
        add 0 4 0 0 0 - - 0 0 0 2 /A => refused 6
        erase 2 => refused 11",
    );
}

/// With its assertions the Rust stops. Without them the second node is a child of the first, and the root from then on.
#[test]
fn a_graph_may_be_started_twice_there() {
    let mut graph = started("/A");
    let stopped = stops(|| _ = graph.init_root(LayerStackId(0), LayerId(0), path("/A")));
    assert_eq!(stopped, cfg!(debug_assertions));
    if !stopped {
        assert_eq!((graph.root(), graph.node(NodeId(1)).parent()), (NodeId(1), Some(NodeId(0))));
    }
    check("init 0 0 /A => 0\ninit 0 0 /A => refused 3");
}
