//! The scripts that order graphs, and what the sequence of adding has to do with the order.

use plain::order::sorted;
use plain::random::Random;
use plain::samples::graphs::{Node, snapshot};
use plain::samples::ordered::ORDERED_SHAPES;
use plain::samples::orders::{resequenced, settled, small};

use super::{answers, check, printed};
use crate::calls::graph_of;
use crate::timing::OrderTimer;
use crate::{narrowing, scripts};

#[test]
fn words_and_answers() {
    let script = printed(scripts::orders, 22, 3_000) + &printed(scripts::orders_large, 22, 20);
    let answers = answers(&script);
    assert!(!answers.iter().any(|answer| answer == "bad line"));
    let counted = |word: &str, answer: &str| {
        script.lines().zip(&answers).filter(|(line, given)| *line == word && *given == answer).count()
    };
    assert!(counted("order", "refused 9") > 300 && counted("order", "ok") > 1_500);
    assert_eq!(counted("list", "refused 3"), counted("order", "refused 3"));
    assert!(counted("order", "refused 3") > 20 && counted("list", "refused 10") > counted("order", "refused 9"));
    for marks in ["0 0 0", "0 0 1", "1 0 1", "1 1 0"] {
        assert!(counted("marks", marks) > 20, "{marks}");
    }
}

/// The same three References in two sequences: sibling numbers decide, and the listing is the same.
#[test]
fn sibling_numbers_decide() {
    check(
        "init 0 0 /M => 0
         add - 0 0 0 0 - - 0 0 0 1 /M => 1
         add 1 4 0 0 0 - - 2 0 0 1 /C => 2
         add 1 4 0 0 0 - - 0 0 0 1 /A => 3
         add 1 4 0 0 0 - - 1 0 0 1 /B => 4
         order => ok
         list => 0 1 3 4 2
         new => ok
         init 0 0 /M => 0
         add - 0 0 0 0 - - 0 0 0 1 /M => 1
         add 1 4 0 0 0 - - 1 0 0 1 /B => 2
         add 1 4 0 0 0 - - 2 0 0 1 /C => 3
         add 1 4 0 0 0 - - 0 0 0 1 /A => 4
         order => ok
         list => 0 1 4 2 3",
    );
}

/// Two References that differ in their paths only: the one that was added first is the stronger.
#[test]
fn node_numbers_decide() {
    check(
        "init 0 0 /M => 0
         add - 0 0 0 0 - - 0 0 0 1 /M => 1
         add 1 4 0 0 0 - - 0 0 0 1 /A => 2
         add 1 4 0 0 0 - - 0 0 0 1 /B => 3
         order => ok
         list => 0 1 2 3
         new => ok
         init 0 0 /M => 0
         add - 0 0 0 0 - - 0 0 0 1 /M => 1
         add 1 4 0 0 0 - - 0 0 0 1 /B => 2
         add 1 4 0 0 0 - - 0 0 0 1 /A => 3
         order => ok
         list => 0 1 2 3",
    );
}

/// Arc, depth, path and sibling number of a node.
type Listed<'a> = (u8, u16, &'a [u8], u16);

/// The nodes in the graph's order; nothing where there is no order.
fn listing(nodes: &[Node]) -> Option<Vec<Listed<'_>>> {
    let mut judge = graph_of(&snapshot(nodes)).expect("a legal graph");
    narrowing::order(judge.graph(), false).ok()?;
    judge.finalize_strength_order();
    let order = judge.graph().strength_order().iter().map(|node| &nodes[node.idx()]);
    Some(order.map(|node| (node.arc, node.depth, &node.path[..], node.sibling)).collect())
}

#[test]
fn sequences() {
    let mut random = Random::new(23);
    let mut differ = [0, 0];
    for at in 0..2_000 {
        let by_numbers = at % 2;
        let nodes = settled(&mut random, by_numbers == 1);
        let sequence = resequenced(&mut random, &nodes);
        differ[by_numbers] += usize::from(listing(&nodes) != listing(&sequence));
    }
    assert_eq!(differ[0], 0);
    assert!(differ[1] > 200, "{differ:?}");
}

/// The shapes that are measured have an order.
#[test]
fn times_and_sums() {
    assert!(OrderTimer::new("ring", 16).is_none());
    let chain = OrderTimer::new("chain", 16).expect("a shape with an order");
    let sum = chain.turns().map(|ordered| ordered.sum);
    assert_eq!(sum, Some((0..16).map(|place| place * place).sum()));
    for (_, shape) in ORDERED_SHAPES {
        assert!([16, 64, 256].iter().all(|&count| listing(&shape(count)).is_some()));
    }
}

/// The plain reading sorts each child list as the Rust does, or finds none where there is no order.
#[test]
fn plain_order() {
    let mut random = Random::new(24);
    for _ in 0..2_000 {
        let nodes = small(&mut random);
        let mut judge = graph_of(&snapshot(&nodes)).expect("a legal graph");
        let ordered = narrowing::order(judge.graph(), false).is_ok();
        judge.finalize_strength_order();
        let lists = judge.graph().nodes().map(|node| node.children().map(|child| child.idx()).collect()).collect();
        assert_eq!(sorted(&nodes), ordered.then_some(lists));
    }
}
