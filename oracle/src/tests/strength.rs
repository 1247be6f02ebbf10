//! The scripts that compare nodes, and the plain comparison beside the Rust's.

use std::collections::HashMap;

use plain::samples::graphs::snapshot;
use plain::samples::strength::{SHAPES, random_pairs};
use plain::strength::Strength;

use super::{answers, printed};
use crate::calls::graph_of;
use crate::deciding::{self, deciding};
use crate::pcp::prim_graph::ArcType::{self, Inherit, Payload, Reference, Relocate, Root, Specialize, Variant};
use crate::pcp::prim_graph::NodeId;
use crate::{scripts, timing};

#[test]
fn words_and_answers() {
    let script = printed(scripts::strength, 11, 3_000) + &printed(scripts::strength_large, 11, 2);
    let words = ["new", "read", "compare", "sibling", "compares"];
    assert!(script.lines().all(|line| words.contains(&line.split(' ').next().unwrap_or(line))));
    let answers = answers(&script);
    assert!(!answers.iter().any(|answer| answer == "bad line"));
    let refused = |number: &u8| answers.iter().any(|answer| *answer == format!("refused {number}"));
    assert_eq!((0..=12).filter(refused).collect::<Vec<_>>(), [3, 4, 8]);
    for ordering in ["Less", "Equal", "Greater"] {
        assert!(answers.iter().filter(|answer| *answer == ordering).count() > 1_000);
    }
}

#[test]
fn relations() {
    super::check(
        "class 0 => refused 3
         init 0 0 /M => 0
         add 0 0 0 0 0 - - 0 0 0 1 /M => 1
         add 1 4 0 0 0 - - 0 0 0 1 /R => 2
         add 2 6 8 0 0 - - 0 0 0 1 /S => 3
         add 1 6 8 0 0 3 - 0 0 0 1 /S => 4
         propagated 3 => 0
         propagated 4 => 1
         copy 3 => 4
         copy 4 => -
         copy 2 => -
         class 4 => 2 3
         class 2 => 2 -
         ancestor 2 3 => 1
         ancestor 3 3 => 1
         ancestor 1 3 => 0
         ancestor 0 3 => 0
         site 3 4 => 1
         site 2 3 => 0
         site 2 5 => refused 4
         ancestor 5 2 => refused 4
         propagated 4294967295 => refused 4
         copy - => bad line
         class 1 2 => bad line",
    );
    let script = printed(scripts::relations, 15, 500);
    let answers = answers(&script);
    assert!(!answers.iter().any(|answer| answer == "bad line"));
    for answer in ["0", "1", "-", "0 -", "1 2", "refused 3", "refused 4"] {
        assert!(answers.iter().any(|other| other == answer), "{answer}");
    }
}

/// Each pair of arcs that can be siblings is asked both ways round; where they differ, the one that comes first on
/// OpenUSD's page is the stronger, whatever else the records say.
#[test]
fn arcs_as_the_page_has_them() {
    const PAGE: [ArcType; 7] = [Root, Inherit, Variant, Relocate, Reference, Payload, Specialize];
    let mut script = Vec::new();
    scripts::arcs(&mut script).expect("memory takes every byte");
    let script = String::from_utf8(script).expect("text");
    let (mut arcs, mut pairs): (Vec<ArcType>, HashMap<_, usize>) = (Vec::new(), HashMap::new());
    for (line, answer) in script.lines().zip(answers(&script)) {
        match line.split(' ').collect::<Vec<_>>()[..] {
            ["init", ..] => arcs = vec![Root],
            ["add", _, arc, ..] => arcs.push(PAGE[arc.parse::<usize>().expect("a number")]),
            ["sibling" | "compare", a, b] => {
                let [a, b] = [a, b].map(|node| arcs[node.parse::<usize>().expect("a number")]);
                let [x, y] = [a, b].map(|arc| PAGE.iter().position(|&other| other == arc));
                assert!(x == y || answer == format!("{:?}", x.cmp(&y)), "{a:?} and {b:?}: {answer}");
                *pairs.entry((x, y)).or_default() += 1;
            }
            _ => assert!(["new", "order", "list"].contains(&line), "{line}"),
        }
    }
    assert!(pairs.len() == 48 && pairs.values().all(|&lines| lines == 1_024));
}

/// A script's graphs are those whose lines are counted.
#[test]
fn graphs_of_the_script() {
    let script = printed(scripts::strength, 12, 50);
    let read: Vec<&str> = script.lines().filter_map(|line| line.strip_prefix("read ")).collect();
    let graphs: Vec<String> =
        scripts::strength_graphs(12, 50).map(|nodes| crate::calls::hex(&snapshot(&nodes))).collect();
    assert_eq!(read, graphs);
}

#[test]
fn every_line_decides() {
    let settled = deciding(13, 20_000).expect("the plain reading and the Rust agree");
    assert!(settled.iter().all(|&pairs| pairs >= 40), "{settled:?}");
    assert_eq!(printed(deciding::print, 13, 100).lines().count(), settled.len());
}

/// Large graphs too, and the shapes that are measured.
#[test]
fn large_graphs() {
    let mut random = plain::random::Random::new(14);
    let large = (0..10).map(|_| plain::samples::strength::large(&mut random));
    for nodes in large.chain(SHAPES.map(|(_, shape)| shape(400))) {
        let judge = graph_of(&snapshot(&nodes)).expect("a legal graph");
        let plain = Strength::new(&nodes);
        for (a, b) in random_pairs(&nodes, 2_000) {
            let rust = judge.graph().compare_node_strength(NodeId(a), NodeId(b));
            assert_eq!(plain.of_nodes(a as usize, b as usize), rust);
        }
    }
}

/// Answers are added up as Less 0, Equal 1, Greater 2.
#[test]
fn times_and_sums() {
    assert!(timing::comparing("ring", 16).is_none());
    let [siblings, nodes] = timing::comparing("chain", 16).expect("a shape");
    // There are no siblings; of two nodes either is the stronger one time in two, or they are one.
    assert_eq!(siblings.sum, 0);
    assert!(nodes.sum.abs_diff(10_000) < 500 && nodes.nanoseconds > 0);
}
