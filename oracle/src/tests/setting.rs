//! The setters of one node, `mark`, `spec`, `specs` and `restrict`: what they set and keep, and what is refused; and the
//! two questions on a node's introduction, `due` and `introduced`.

use super::{answers, check};

/// Node 0, the local root and a Reference below it.
const GROWN: &str = "init 0 0 /M => 0
    add 0 0 0 0 0 - 1 0 0 0 1 /M => 1
    add 1 4 8 0 0 - 1 0 3 5 1 /R => 2
    ";

const GROWN_DUMP: &str = "0,1,0,0,-,-,1,0,0,0,1,/M;0,0,0,0,0,0,1,0,0,0,1,/M;4,8,0,0,1,1,1,0,3,5,1,/R";

/// What `dump` shows of a node of `GROWN` after these calls, which are accepted.
fn shown(calls: &[&str], node: usize) -> String {
    let grown = GROWN.lines().filter_map(|line| line.trim().split_once(" => ")).map(|(line, _)| line);
    let lines: Vec<&str> = grown.chain(calls.iter().copied()).chain(["dump"]).collect();
    let answers = answers(&lines.join("\n"));
    let (dump, made) = answers.split_last().expect("an answer for each line");
    assert!(made[3..].iter().all(|answer| answer == "ok"), "{made:?}");
    dump.split(';').nth(node).expect("a record").into()
}

#[test]
fn marking_adds_flags() {
    assert_eq!(shown(&["mark 2 0"], 2), "4,8,0,0,1,1,1,0,3,5,1,/R");
    assert_eq!(shown(&["mark 2 1"], 2), "4,9,0,0,1,1,1,0,3,5,1,/R");
    assert_eq!(shown(&["mark 2 2"], 2), "4,10,0,0,1,1,1,0,3,5,1,/R");
    assert_eq!(shown(&["mark 2 4"], 2), "4,12,0,0,1,1,1,0,3,5,1,/R");
    assert_eq!(shown(&["mark 2 1", "mark 2 6", "mark 2 0"], 2), "4,15,0,0,1,1,1,0,3,5,1,/R");
    assert_eq!(shown(&["mark 0 5"], 0), "0,5,0,0,-,-,1,0,0,0,1,/M");
    assert_eq!(shown(&["mark 1 5"], 1), "0,5,0,0,0,0,1,0,0,0,1,/M");
    assert_eq!(shown(&["mark 2 7"], 1), "0,0,0,0,0,0,1,0,0,0,1,/M");
}

/// Only the flags that each prim has for itself, and CULLED on no Root arc.
#[test]
fn flags_that_may_not_be_marked() {
    for line in ["mark 2 8", "mark 2 9", "mark 2 16", "mark 2 128", "mark 2 255", "mark 0 2", "mark 1 2", "mark 1 7"] {
        check(&format!("{GROWN}{line} => refused 6\ndump => {GROWN_DUMP}"));
    }
}

#[test]
fn the_first_spec() {
    assert_eq!(shown(&["spec 2 0"], 2), "4,8,0,0,1,1,1,0,3,0,1,/R");
    assert_eq!(shown(&["spec 2 65535"], 2), "4,8,0,0,1,1,1,0,3,65535,1,/R");
    assert_eq!(shown(&["spec 2 -"], 2), "4,8,0,0,1,1,1,0,3,0,0,/R");
    assert_eq!(shown(&["spec 2 -", "spec 2 7"], 2), "4,8,0,0,1,1,1,0,3,7,1,/R");
    assert_eq!(shown(&["spec 0 -"], 0), "0,1,0,0,-,-,1,0,0,0,0,/M");
}

/// Which layer has the first spec is then not known: it is stored as 0, and so it is without specs.
#[test]
fn having_specs() {
    assert_eq!(shown(&["specs 2 1"], 2), "4,8,0,0,1,1,1,0,3,0,1,/R");
    assert_eq!(shown(&["specs 2 0"], 2), "4,8,0,0,1,1,1,0,3,0,0,/R");
    assert_eq!(shown(&["specs 2 0", "specs 2 1"], 2), "4,8,0,0,1,1,1,0,3,0,1,/R");
    assert_eq!(shown(&["specs 0 0"], 0), "0,1,0,0,-,-,1,0,0,0,0,/M");
}

#[test]
fn the_restriction_depth() {
    assert_eq!(shown(&["restrict 2 65535"], 2), "4,8,0,0,1,1,1,0,65535,5,1,/R");
    assert_eq!(shown(&["restrict 2 9", "restrict 2 0"], 2), "4,8,0,0,1,1,1,0,0,5,1,/R");
    assert_eq!(shown(&["restrict 0 2"], 0), "0,1,0,0,-,-,1,0,2,0,1,/M");
}

/// Question 4 comes before question 6.
#[test]
fn nodes_that_are_not_there() {
    let calls =
        ["mark N 255", "mark N 0", "spec N -", "spec N 0", "specs N 1", "restrict N 0", "due N", "introduced N"];
    for call in calls {
        for node in ["3", "4", "1024", "4294967295"] {
            check(&format!("{GROWN}{} => refused 4\ndump => {GROWN_DUMP}", call.replace('N', node)));
        }
    }
}

/// The order stays, finalized or only ordered, and so do the marks of a graph that is not ordered.
#[test]
fn order_and_marks_are_kept() {
    let grown = "init 0 0 /A\nadd 0 4 0 0 0 - 1 0 0 0 1 /R\nadd 0 1 0 0 0 - DEPTH 0 0 0 1 /C";
    let calls = "mark 1 7\nspec 1 4\nspec 1 -\nspecs 1 1\nspecs 1 0\nrestrict 1 3\ndue 1\nintroduced 1";
    let shown = |depth: &str, order: &str| {
        let script = format!("{grown}\n{order}\n{calls}\nmarks\nlist\nchains").replace("DEPTH", depth);
        answers(&script)[12..].to_vec()
    };
    assert_eq!(shown("1", "order"), ["1 1 0", "0 2 1", "2,1;;"]);
    assert_eq!(shown("2", "order"), ["1 0 1", "0 2 1", "2,1;;"]);
    assert_eq!(shown("1", ""), ["0 0 0", "refused 10", "1,2;;"]);
    assert_eq!(shown("2", ""), ["0 0 1", "refused 10", "1,2;;"]);
}

/// A node with specs is culled once it is INERT, and goes once it has none.
#[test]
fn culling_and_erasing_see_what_was_set() {
    check(&format!(
        "{GROWN}deepen /a => ok
        cull => ok
        erasable => 000
        mark 2 1 => ok
        cull => ok
        dump => 0,1,0,0,-,-,1,0,0,0,1,/M/a;0,0,0,0,0,0,1,0,0,0,1,/M/a;4,11,0,0,1,1,1,0,3,5,1,/R/a
        erasable => 000
        specs 2 0 => ok
        erasable => 001
        spec 2 0 => ok
        erasable => 000
        spec 2 - => ok
        erase 001 => 2"
    ));
}

#[test]
fn a_marked_node_may_be_culled_above_one_that_stays() {
    check(&format!(
        "{GROWN}add 2 4 0 0 0 - 1 0 0 0 1 /S => 3
        deepen /a => ok
        spec 2 - => ok
        mark 2 2 => ok
        erasable => 0000
        spec 3 - => ok
        mark 3 2 => ok
        erasable => 0011
        using 0 /R/a => -"
    ));
}

/// Record 0 may have all that is set of node 0, and comes back with it.
#[test]
fn a_snapshot_holds_what_was_set() {
    let record = format!("001d0005{:016}{:f>16}0001000003040201012f4d", 0, "");
    check(&format!(
        "init 0 0 /M => 0
        mark 0 4 => ok
        spec 0 513 => ok
        restrict 0 772 => ok
        write => 00000022010001{record}
        specs 0 0 => ok
        read 00000022010001{record} => 1
        dump => 0,5,0,0,-,-,1,0,772,513,1,/M"
    ));
}

/// A node that was introduced above is due to an ancestor; node 0 is introduced by `/`.
#[test]
fn introductions() {
    check(&format!(
        "{GROWN}due 0 => 0
        introduced 0 => /
        due 2 => 0
        introduced 2 => /M
        deepen /a => ok
        due 0 => 0
        introduced 0 => /
        due 1 => 1
        introduced 1 => /M
        due 2 => 1
        introduced 2 => /M
        intro 2 => /R
        deepen /b => ok
        due 2 => 1
        introduced 2 => /M"
    ));
}

/// The parent's path goes back, not the node's own; a depth beyond it leaves it as it is.
#[test]
fn the_path_of_the_parent_that_introduced_a_node() {
    check(
        "init 0 0 /A{v=x}B{w=y} => 0
        add 0 4 0 0 0 - 2 0 0 0 1 /R => 1
        add 0 4 0 0 0 - 1 0 0 0 1 /R => 2
        add 0 4 0 0 0 - 0 0 0 0 1 /R => 3
        add 0 4 0 0 0 - 3 0 0 0 1 /R => 4
        add 3 4 0 0 0 0 0 0 0 0 1 /S => 5
        introduced 1 => /A{v=x}B{w=y}
        introduced 2 => /A{v=x}
        introduced 3 => /
        introduced 4 => /A{v=x}B{w=y}
        introduced 5 => /
        due 1 => 0
        due 2 => 1
        due 3 => 1
        due 4 => 0
        due 5 => 1",
    );
}
