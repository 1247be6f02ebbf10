//! Culling, the erasable set and erasing: an example for each rule, and for each way in which an erase set is refused.
//! Node 0 and the local root, `/M/a` both, come first; what is added with depth 1 below them has depth below
//! introduction 1.

use super::check;
use crate::calls::{Calls, hex};
use crate::flags::CULLED;
use crate::snapshot;

const ROOTS: &str = "init 0 0 /M/a => 0
    add - 0 0 0 0 - - 0 0 0 1 /M/a => 1";

/// Runs lines with their answers on the two roots.
fn check_rooted(script: &str) {
    check(&format!("{ROOTS}\n{script}"));
}

/// The line that reads the graph of `script` with CULLED on these nodes, and its answer.
fn read_culled(script: &str, nodes: &[usize]) -> String {
    let mut calls = Calls::default();
    for line in script.lines() {
        calls.answer(line.trim().split(" => ").next().unwrap_or("").as_bytes());
    }
    let mut records = calls.current().records();
    nodes.iter().for_each(|&node| records[node].flags |= CULLED);
    format!("read {} => {}", hex(&snapshot::encode(&records)), records.len())
}

#[test]
fn a_leaf_a_branch_and_a_subtree() {
    // Node 3 has a child that stays; the whole subtree of node 6 goes.
    check_rooted(
        "add 1 4 0 1 0 - 1 0 0 0 0 /R/a => 2
        add 1 4 0 1 0 - 1 1 0 0 0 /S/a => 3
        add 3 4 0 1 0 - 1 0 0 0 0 /T/a => 4
        add 3 4 0 1 0 - 1 1 0 0 1 /U/a => 5
        add 1 4 0 1 0 - 1 2 0 0 0 /V/a => 6
        add 6 4 0 1 0 - 1 0 0 0 0 /W/a => 7
        add 7 4 0 1 0 - 1 0 0 0 0 /X/a => 8
        erasable => 000000000
        cull => ok
        erasable => 001010111
        marks => 0 0 0
        erase 001010111 => 4
        dump => 0,1,0,0,-,-,2,0,0,0,1,/M/a;0,0,0,0,0,0,2,0,0,0,1,/M/a;4,0,1,0,1,1,1,1,0,0,0,/S/a;4,0,1,0,2,2,1,1,0,0,1,/U/a
        chains => 1;2;3;
        erasable => 0000",
    );
}

/// Culling sets one flag and leaves the others, and a second time it changes nothing.
#[test]
fn culling_twice() {
    check_rooted(
        "add 1 4 244 1 0 - 1 0 0 0 0 /R/a => 2
        cull => ok
        dump => 0,1,0,0,-,-,2,0,0,0,1,/M/a;0,0,0,0,0,0,2,0,0,0,1,/M/a;4,246,1,0,1,1,1,0,0,0,0,/R/a
        cull => ok
        dump => 0,1,0,0,-,-,2,0,0,0,1,/M/a;0,0,0,0,0,0,2,0,0,0,1,/M/a;4,246,1,0,1,1,1,0,0,0,0,/R/a
        erasable => 001",
    );
}

/// The local root is below its introduction, without specs and without children: its arc keeps it.
#[test]
fn a_root_arc_is_not_culled() {
    check(
        "init 0 0 /M/a => 0
        add - 0 0 0 0 - 1 0 0 0 0 /M/a => 1
        below 1 => 1
        cull => ok
        using 0 /M/a => 1
        erasable => 00
        add 1 4 0 0 0 - 1 0 0 0 0 /R/a => 2
        cull => ok
        erasable => 001
        erase 011 => refused 11
        erase 001 => 2",
    );
}

/// At the depth of its introduction a node is not culled, nor where its depth is beyond its parent's path.
#[test]
fn depth_below_introduction_0() {
    check_rooted(
        "add 1 4 0 1 0 - - 0 0 0 0 /R/a => 2
        add 1 4 0 1 0 - 3 0 0 0 0 /S/a => 3
        add 1 4 0 1 0 - 1 0 0 0 0 /T/a => 4
        add 4 4 0 1 0 - - 0 0 0 0 /U/a => 5
        cull => ok
        using 1 /R/a => 2
        using 1 /S/a => 3
        using 1 /T/a => 4
        erasable => 000000",
    );
}

/// A node has specs but is INERT: it is culled, and stays all the same since it has specs. So does its parent.
#[test]
fn inert_with_specs() {
    check_rooted(
        "add 1 4 0 1 0 - 1 0 0 0 0 /R/a => 2
        add 2 4 1 1 0 - 1 0 0 0 1 /S/a => 3
        add 1 4 1 1 0 - 1 0 0 0 0 /T/a => 4
        cull => ok
        dump => 0,1,0,0,-,-,2,0,0,0,1,/M/a;0,0,0,0,0,0,2,0,0,0,1,/M/a;4,2,1,0,1,1,1,0,0,0,0,/R/a;4,3,1,0,2,2,1,0,0,0,1,/S/a;4,3,1,0,1,1,1,0,0,0,0,/T/a
        erasable => 00001
        erase 00100 => refused 11
        erase 00110 => 3",
    );
}

/// Node 2 is marked, and is the parent of node 3, which is culled but has specs.
#[test]
fn a_parent_of_an_unmarked_node_stays() {
    check_rooted(
        "add 1 4 0 1 0 - 1 0 0 0 0 /R/a => 2
        add 2 4 1 1 0 - 1 0 0 0 1 /S/a => 3
        add 2 4 0 1 0 - 1 1 0 0 0 /T/a => 4
        cull => ok
        erasable => 00001
        erase 00101 => refused 11
        erase 00001 => 4
        chains => 1;2;3;",
    );
}

/// Node 5 is unmarked. Its origin 4 is marked, 4's parent 3 is, and 3's origin 2 is: all stay. Node 6 goes.
#[test]
fn what_is_reached_by_parents_and_origins_stays() {
    check_rooted(
        "add 1 4 0 1 0 - 1 0 0 0 0 /R/a => 2
        add 1 4 0 1 0 2 1 1 0 0 0 /S/a => 3
        add 3 4 0 1 0 - 1 2 0 0 0 /T/a => 4
        add 1 4 0 1 0 4 1 3 0 0 1 /U/a => 5
        add 3 4 0 1 0 2 1 4 0 0 0 /V/a => 6
        cull => ok
        using 1 /R/a => -
        using 1 /S/a => -
        using 1 /T/a => -
        using 1 /U/a => 5
        erasable => 0000001
        erase 0010001 => refused 11
        erase 0000101 => refused 11
        erase 0000001 => 6",
    );
}

/// Node 2 is marked, and so is its copy 3, and so is the copy's copy 4. They go together, or the last first.
#[test]
fn an_origin_of_a_marked_node_may_go() {
    check_rooted(
        "add 1 4 0 1 0 - 1 0 0 0 0 /R/a => 2
        add 1 4 0 1 0 2 1 0 0 0 0 /R/a => 3
        add 1 4 0 1 0 3 1 0 0 0 0 /S/a => 4
        cull => ok
        erasable => 00111
        erase 00100 => refused 11
        erase 00110 => refused 11
        erase 00001 => 4
        erase 0011 => 2",
    );
}

/// Inherits in the local root's stack. The path at introduction is `/C`, `/C/b`, `/`, `/C{v=x}`; it is one prim of the
/// first and the last, which are culled. In another stack all are.
#[test]
fn authored_inherits() {
    check_rooted(
        "add 1 1 0 0 0 - 1 0 0 0 0 /C/a => 2
        add 1 1 0 0 0 - 1 0 0 0 0 /C/b/a => 3
        add 1 1 0 0 0 - 1 0 0 0 0 /a => 4
        add 1 1 0 0 0 - 1 0 0 0 0 /C{v=x}a => 5
        add 1 1 0 0 0 - 0 0 0 0 0 /C/b/a => 6
        add 1 1 0 0 0 - 0 0 0 0 0 /C/a => 7
        add 1 1 0 1 0 - 1 0 0 0 0 /C/b/a => 8
        add 1 6 0 0 0 - 1 0 0 0 0 /C/b/a => 9
        intro 3 => /C/b
        intro 4 => /
        intro 6 => /C
        intro 7 => /
        cull => ok
        erasable => 0010011011
        erase 0010011011 => 5",
    );
}

/// Inherits that are not authored: R decides, by its own path and its own depth below introduction. Nodes 2 to 5 are R:
/// node 2 at `/C`, node 3 at `/C/b`, node 4 at `/C`, which it has at this prim, node 5 at `/C/a`, likewise.
#[test]
fn inherits_through_r() {
    check_rooted(
        "add 1 1 0 1 0 - 1 0 0 0 1 /C/a => 2
        add 1 1 0 1 0 - 1 0 0 0 1 /C/b/a => 3
        add 1 1 0 1 0 - 2 0 0 0 1 /C => 4
        add 1 1 0 1 0 - 2 0 0 0 1 /C/a => 5
        add 0 1 0 0 0 2 1 0 0 0 0 /C/b/a => 6
        add 0 1 0 0 0 3 1 0 0 0 0 /C/a => 7
        add 0 1 0 0 0 4 1 0 0 0 0 /C/b/a => 8
        add 0 1 0 0 0 5 1 0 0 0 0 /C/a => 9
        add 0 1 0 0 0 6 1 0 0 0 0 /C/b/a => 10
        add 0 1 0 0 0 7 1 0 0 0 0 /C/a => 11
        cull => ok
        erasable => 000000101010
        erase 0000001 => refused 11
        erase 000000101010 => 9",
    );
}

/// Nothing is culled then, and what a snapshot brings as CULLED is marked all the same.
#[test]
fn without_a_local_root() {
    let script = "init 0 0 /M/a => 0
        add - 4 0 0 0 - 1 0 0 0 0 /R/a => 1
        add 1 1 0 1 0 - 1 0 0 0 0 /S/a => 2
        add 0 4 0 0 0 - 1 0 0 0 0 /T/a => 3
        cull => ok
        erasable => 0000";
    check(script);
    check(&format!(
        "{}
        erasable => 0010
        cull => ok
        erasable => 0010
        erase 0010 => 3
        erase 011 => 1",
        read_culled(script, &[2])
    ));
}

/// CULLED from a snapshot: nodes 2 and 3 without specs, 4 and 5 with; 2 and 4 below their introduction, 3 and 5 at it.
#[test]
fn culled_by_a_snapshot() {
    let script = format!(
        "{ROOTS}
        add 1 4 0 1 0 - 1 0 0 0 0 /R/a
        add 1 4 0 1 0 - 2 0 0 0 0 /S/a
        add 1 4 0 1 0 - 1 0 0 0 1 /T/a
        add 1 4 0 1 0 - 2 0 0 0 1 /U/a"
    );
    check(&format!(
        "{}
        erasable => 001000
        cull => ok
        erasable => 001000
        using 1 /S/a => -
        using 1 /U/a => -
        erase 001000 => 5
        erase 001110 => 2",
        read_culled(&script, &[2, 3, 4, 5])
    ));
}

/// CULLED from a snapshot on a parent alone, on a child alone, and on an Inherit that culling would not touch.
#[test]
fn culled_parents_and_children_of_a_snapshot() {
    let script = format!(
        "{ROOTS}
        add 1 4 0 1 0 - 1 0 0 0 0 /R/a
        add 2 4 0 1 0 - 1 0 0 0 1 /S/a
        add 1 4 0 1 0 - 1 0 0 0 0 /T/a
        add 4 4 0 1 0 - 1 0 0 0 1 /U/a
        add 1 1 0 0 0 - 1 0 0 0 0 /C/b/a"
    );
    check(&format!(
        "{}
        erasable => 0000001
        cull => ok
        dump => {}
        erasable => 0000001
        erase 0010001 => refused 11
        erase 0000001 => 6",
        read_culled(&script, &[2, 5, 6]),
        "0,1,0,0,-,-,2,0,0,0,1,/M/a;0,0,0,0,0,0,2,0,0,0,1,/M/a;4,2,1,0,1,1,1,0,0,0,0,/R/a;4,0,1,0,2,2,1,0,0,0,1,/S/a;\
        4,2,1,0,1,1,1,0,0,0,0,/T/a;4,2,1,0,4,4,1,0,0,0,1,/U/a;1,2,0,0,1,1,1,0,0,0,0,/C/b/a"
    ));
}

#[test]
fn refused_sets() {
    // Node 0; the local root; node 2, the parent of 3 and not its origin; node 3, the origin of 4 and not its parent.
    check_rooted(
        "add 1 4 0 1 0 - 1 0 0 0 0 /R/a => 2
        add 2 4 0 1 0 1 1 0 0 0 0 /S/a => 3
        add 1 4 0 1 0 3 1 0 0 0 0 /T/a => 4
        cull => ok
        erasable => 00111
        erase 1 => refused 11
        erase 11111 => refused 11
        erase 01 => refused 11
        erase 01111 => refused 11
        erase 001 => refused 11
        erase 00101 => refused 11
        erase 0001 => refused 11
        erase 00011 => 3",
    );
    check_rooted(
        "add 1 4 0 1 0 - 1 0 0 0 1 /R/a => 2
        add 1 4 0 1 0 2 1 0 0 0 1 /S/a => 3
        erase 001 => refused 11
        erase 2 => refused 11
        erase 02 => refused 11
        erase 0002 => refused 11
        erase 00020 => refused 11
        erase 0021 => refused 11
        erase 9 => refused 11
        dump => 0,1,0,0,-,-,2,0,0,0,1,/M/a;0,0,0,0,0,0,2,0,0,0,1,/M/a;4,0,1,0,1,1,1,0,0,0,1,/R/a;4,0,1,0,1,2,1,0,0,0,1,/S/a
        erase 00012 => 3
        erase 0002 => 3
        erase 00000000001 => 3
        erase 00129 => 2
        chains => 1;",
    );
}

#[test]
fn erasing_nothing() {
    check_rooted(
        "add 1 4 0 1 0 - 1 0 0 0 0 /R/a => 2
        cull => ok
        order => ok
        erase 0 => 3
        erase 000 => 3
        erase 0001 => 3
        list => 0 1 2
        marks => 1 1 0
        dump => 0,1,0,0,-,-,2,0,0,0,1,/M/a;0,0,0,0,0,0,2,0,0,0,1,/M/a;4,2,1,0,1,1,1,0,0,0,0,/R/a",
    );
}

/// All but the Roots may go, whatever they are, where the local root's origin is not among them.
#[test]
fn all_but_the_roots() {
    check_rooted(
        "add 1 4 0 1 0 - 1 0 0 0 1 /R/a => 2
        add 2 1 0 0 0 - - 0 0 0 1 /S => 3
        add 0 6 8 0 0 3 1 0 0 0 1 /T => 4
        order => ok
        erase 00111 => 2
        list => 0 1
        chains => 1;
        marks => 1 1 0
        add 1 4 0 1 0 - 1 0 0 0 1 /R/a => 2
        chains => 1;2;",
    );
    check(
        "init 0 0 /M/a => 0
        add - 4 0 1 0 - 1 0 0 0 0 /R/a => 1
        add - 0 0 0 0 1 - 0 0 0 1 /M/a => 2
        add 2 4 0 1 0 - 1 0 0 0 0 /S/a => 3
        cull => ok
        erasable => 0001
        erase 01 => refused 11
        erase 0001 => 3
        chains => 1,2;;",
    );
}

/// The local root gets a new number: it is what propagated nodes and culling go by.
#[test]
fn the_local_root_is_renumbered() {
    check(
        "init 0 0 /M/a => 0
        add - 4 0 1 0 - 1 0 0 0 0 /R/a => 1
        add - 4 0 1 0 - 1 0 0 0 0 /S/a => 2
        add - 0 0 0 0 - - 0 0 0 1 /M/a => 3
        add 3 4 0 1 0 - 1 0 0 0 1 /T/a => 4
        add 3 6 8 1 0 4 1 0 0 0 0 /T/a => 5
        add 3 1 0 0 0 - 1 0 0 0 0 /C/b/a => 6
        propagated 5 => 1
        cull => ok
        erasable => 0110010
        erase 0110000 => 5
        chains => 1;2,3,4;;;
        propagated 3 => 1
        cull => ok
        erasable => 00010
        erase 0001 => 4
        dump => 0,1,0,0,-,-,2,0,0,0,1,/M/a;0,0,0,0,0,0,2,0,0,0,1,/M/a;4,0,1,0,1,1,1,0,0,0,1,/T/a;1,0,0,0,1,1,1,0,0,0,0,/C/b/a
        add - 0 0 0 0 - - 0 0 0 1 /M/a => refused 6",
    );
}

/// The order loses what goes, and nothing else: ordered anew the graph is as it was. So too where it is shallow, and
/// so not finalized.
#[test]
fn ordered_graphs() {
    check_rooted(
        "add 1 4 0 1 0 - 1 1 0 0 0 /R/a => 2
        add 1 4 0 1 0 - 1 0 0 0 1 /S/a => 3
        add 1 1 0 1 0 - 1 0 0 0 1 /T/a => 4
        add 3 4 0 1 0 - 1 0 0 0 0 /U/a => 5
        add 3 4 0 1 0 - 1 0 0 0 1 /V/a => 6
        order => ok
        list => 0 1 4 3 5 6 2
        cull => ok
        marks => 1 1 0
        list => 0 1 4 3 5 6 2
        erase 0010010 => 5
        list => 0 1 3 2 4
        chains => 1;3,2;4;;
        marks => 1 1 0
        order => ok
        list => 0 1 3 2 4",
    );
    check_rooted(
        "add 1 4 0 1 0 - 3 1 0 0 0 /R/a => 2
        add 1 4 0 1 0 - 1 0 0 0 0 /S/a => 3
        add 1 1 0 1 0 - 1 0 0 0 1 /T/a => 4
        order => ok
        marks => 1 0 1
        cull => ok
        erasable => 00010
        erase 0001 => 4
        marks => 1 0 1
        list => 0 1 3 2
        order => ok
        list => 0 1 3 2
        erase 001 => 3
        marks => 1 0 1
        list => 0 1 2",
    );
}

/// What is added to the graph that is left comes last in its parent's chain, and has the number after the last.
#[test]
fn adding_after_erasing() {
    check_rooted(
        "add 1 4 0 1 0 - 1 0 0 0 1 /R/a => 2
        add 1 4 0 1 0 - 1 1 0 0 0 /S/a => 3
        add 1 4 0 1 0 - 1 2 0 0 1 /T/a => 4
        add 1 4 0 1 0 - 1 3 0 0 0 /U/a => 5
        add 3 4 0 1 0 - 1 0 0 0 0 /V/a => 6
        order => ok
        cull => ok
        erase 0001011 => 4
        chains => 1;2,3;;
        add 1 4 0 1 0 3 1 4 0 0 1 /W/a => 4
        chains => 1;2,3,4;;;
        marks => 0 0 0
        list => refused 10
        add 3 4 0 1 0 - 1 0 0 0 1 /X/a => 5
        chains => 1;2,3,4;;5;;
        order => ok
        list => 0 1 2 3 5 4",
    );
}

/// Deepening, and then what was introduced at the prim before is below its introduction.
#[test]
fn culled_once_deepened() {
    check_rooted(
        "add 1 4 0 1 0 - - 0 0 0 0 /R => 2
        cull => ok
        erasable => 000
        deepen /M/a/b => ok
        cull => ok
        erasable => 001
        seed /M/a/b/c => ok
        erasable => 001
        erase 001 => 2
        swap => ok
        erasable => 001",
    );
}

#[test]
fn refusals_of_an_empty_graph() {
    check(
        "cull => refused 3
        erasable => refused 3
        erase 2 => refused 3
        init 0 0 / => 0
        cull => ok
        erasable => 0
        erase 0 => 1
        erase 1 => refused 11
        dump => 0,1,0,0,-,-,0,0,0,0,1,/",
    );
}

/// As many nodes as there may be: all but the Roots go, and as many can be added again.
#[test]
fn the_largest_graph() {
    let mut calls = Calls::default();
    let mut say = |line: &str| calls.answer(line.as_bytes()).text();
    say("init 0 0 /M/a");
    say("add - 0 0 0 0 - - 0 0 0 1 /M/a");
    for _ in 2..1_024 {
        say("add 1 4 0 1 0 - 1 0 0 0 0 /R/a");
    }
    say("cull");
    let erasable = say("erasable");
    assert_eq!(erasable, format!("00{}", "1".repeat(1_022)));
    assert_eq!(say(&format!("erase {erasable}1")), "bad line");
    assert_eq!(say(&format!("erase {erasable}")), "2");
    assert_eq!(say("add 1 4 0 1 0 - 1 0 0 0 0 /R/a"), "2");
}
