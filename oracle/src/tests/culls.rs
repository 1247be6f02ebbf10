//! The scripts that cull graphs and erase from them, and the plain culling and erasing of arenas beside the Rust's.

use plain::culling::{SET_BYTES, cull, erasable};
use plain::erasing::erase;
use plain::layout::{ARENA_BYTES, ORDER_ENTRY, RECORD, RECORD_LENGTH, SHALLOW, slot_at, u16_at, u32_at};
use plain::random::Random;
use plain::samples::culls::{CULLED_SHAPES, full, small};
use plain::samples::graphs::{self, Node, set_length};

use super::{answers, printed};
use crate::calls::graph_of;
use crate::judge::Judge;
use crate::{narrowing, scripts, snapshot, timing};

#[test]
fn words_and_answers() {
    let script = printed(scripts::culls, 31, 3_000) + &printed(scripts::culls_large, 31, 25);
    let answers = answers(&script);
    assert!(!answers.iter().any(|answer| answer == "bad line"));
    let counted = |word: &str, answer: &str| {
        let pairs = script.lines().zip(&answers);
        pairs.filter(|(line, given)| line.starts_with(word) && given.starts_with(answer)).count()
    };
    assert_eq!(counted("cull", "ok") + counted("cull", "refused 3"), counted("cull", ""));
    assert!(counted("cull", "ok") == 3_026 && counted("cull", "refused 3") > 5);
    assert!(counted("erase ", "refused 11") > 300 && counted("erase ", "refused 3") > 5);
    assert!(counted("erase ", "") - counted("erase ", "refused") > 3_000);
    assert!(counted("list", "0") > 3_000 && counted("list", "refused 10") > 1_000);
    assert!(counted("marks", "1 0 1") > 50 && counted("marks", "1 1 0") > 1_000);
}

/// An arena with these nodes over bytes of one value, and the Rust's graph of them; both ordered where that is asked
/// for and there is an order.
fn made(nodes: &[Node], unused: u8, ordered: bool) -> (Vec<u8>, Judge) {
    let bytes = graphs::snapshot(nodes);
    let mut arena = vec![unused; ARENA_BYTES];
    plain::snapshot::read(&bytes, &mut arena).expect("a legal graph");
    let mut judge = graph_of(&bytes).expect("a legal graph");
    if ordered && narrowing::order(judge.graph(), false).is_ok() {
        judge.finalize_strength_order();
        let lists = plain::order::sorted(nodes).expect("an order");
        plain::order::write(&lists, &mut arena);
    }
    (arena, judge)
}

/// Snapshot, child lists, marks and order of both are the same.
fn assert_same(arena: &[u8], judge: &Judge) {
    let graph = plain::graph::Graph::of(arena).expect("a graph");
    assert_eq!(written(arena, graph.count()), snapshot::encode(&judge.records()));
    let lists: Vec<Vec<usize>> =
        judge.graph().nodes().map(|node| node.children().map(|child| child.idx()).collect()).collect();
    assert_eq!(graph.lists, lists);
    let marks = judge.marks();
    assert_eq!((graph.order.is_some(), arena[SHALLOW] == 1), (marks.ordered, marks.shallow));
    if let Some(order) = graph.order {
        let entries: Vec<usize> = judge.graph().strength_order().iter().map(|node| node.idx()).collect();
        assert_eq!(order, entries);
    }
}

/// The records of an arena as a snapshot.
fn written(arena: &[u8], count: usize) -> Vec<u8> {
    let mut bytes = vec![0, 0, 0, 0, 1];
    bytes.extend((count as u16).to_be_bytes());
    for slot in (0..count).map(slot_at) {
        let end = RECORD + usize::from(u16_at(arena, slot + RECORD_LENGTH));
        bytes.extend(&arena[slot + RECORD_LENGTH..slot + end]);
    }
    set_length(&mut bytes);
    bytes
}

/// Culls and erases both, by the erasable set or by any set; answers whether the set was refused.
fn cull_and_erase(random: &mut Random, arena: &mut [u8], judge: &mut Judge) -> bool {
    cull(arena).expect("a graph");
    judge.cull();
    assert_same(arena, judge);
    let mut set = vec![7; SET_BYTES];
    erasable(arena, &mut set).expect("a graph");
    let mut bits: Vec<u8> = judge.graph().erasable().into_iter().map(u8::from).collect();
    bits.resize(SET_BYTES, 0);
    assert_eq!(set, bits);
    if random.one_in(2) {
        set[random.below(judge.graph().len() + 1)] = random.pick(&[0, 1, 2]);
    }
    let goes = narrowing::erase(judge.graph(), &set).map_err(|refusal| refusal.number);
    let kept = goes.as_ref().map(|goes| judge.erase(goes)).map_err(|&number| number);
    assert_eq!(erase(arena, &set), kept);
    assert_same(arena, judge);
    kept.is_err()
}

#[test]
fn plain_culling_and_erasing() {
    let mut random = Random::new(32);
    let (mut refused, mut ordered) = (0, 0);
    for at in 0..6_000 {
        let nodes = match at % 300 {
            299 => full(&mut random, 200, true),
            _ if at % 3 == 2 => graphs::nodes(&mut random, 1 + at % 20),
            _ => small(&mut random, at % 2 == 0),
        };
        let (mut arena, mut judge) = made(&nodes, random.byte(), random.one_in(2));
        refused += usize::from(cull_and_erase(&mut random, &mut arena, &mut judge));
        ordered += usize::from(judge.is_ordered());
    }
    assert!(refused > 500 && ordered > 2_000, "{refused} {ordered}");
}

/// Erasing leaves what is behind each record, the entries of an order that is not marked, and all slots behind the
/// kept.
#[test]
fn bytes_that_are_not_used() {
    let [_, (_, star), _] = CULLED_SHAPES;
    let (mut arena, _) = made(&star(20), 0xa5, false);
    cull(&mut arena).expect("a graph");
    let mut set = vec![0; SET_BYTES];
    erasable(&arena, &mut set).expect("a graph");
    let before = arena.clone();
    assert_eq!(erase(&mut arena, &set), Ok(11));
    assert_eq!(arena[slot_at(11)..], before[slot_at(11)..]);
    for node in 0..11 {
        assert_eq!(u32_at(&arena, slot_at(node) + ORDER_ENTRY), 0xa5a5_a5a5);
        let end = slot_at(node) + RECORD + usize::from(u16_at(&arena, slot_at(node) + RECORD_LENGTH));
        assert_eq!(arena[end..slot_at(node + 1)], before[end..slot_at(node + 1)]);
    }
}

/// What no line can ask: sizes, and arenas that hold no graph or an empty one.
#[test]
fn refusals() {
    let (mut arena, _) = made(&small(&mut Random::new(34), true), 0, false);
    let mut set = vec![0; SET_BYTES];
    assert_eq!((erase(&mut arena, &set[1..]), erasable(&arena, &mut set[1..])), (Err(1), Err(1)));
    assert_eq!((cull(&mut arena[1..]), erase(&mut arena[1..], &set)), (Err(1), Err(1)));
    arena[0] = 1;
    assert_eq!((cull(&mut arena), erasable(&arena, &mut set), erase(&mut arena, &set)), (Err(2), Err(2), Err(2)));
    arena.fill(0);
    assert_eq!((cull(&mut arena), erasable(&arena, &mut set), erase(&mut arena, &set)), (Err(3), Err(3), Err(3)));
}

/// The shapes that are measured have much to cull, and much to keep.
#[test]
fn times_and_shapes() {
    assert!(timing::culling("ring", 10).is_none());
    assert_eq!(timing::culling("star", 10).expect("a shape").kept, 6);
    for (name, shape) in CULLED_SHAPES {
        for count in [10, 100, 1_024] {
            let mut judge = graph_of(&graphs::snapshot(&shape(count))).expect("a legal graph");
            judge.cull();
            let goes = judge.graph().erasable().into_iter().filter(|&goes| goes).count();
            assert!((count / 5..=count * 4 / 5).contains(&goes), "{name} {count}: {goes}");
        }
    }
}
