//! Graphs to be ordered: small ones of which many have a child list without an order, larger ones, and the same graph
//! with its nodes added in another sequence.

use super::culls;
use super::graphs::{self, Node};
use super::strength::{self, alike, long_chains, sibling_pairs};
use crate::layout::{INVALID, MAX_NODES};
use crate::random::Random;
use crate::record::{HAS_SPECIALIZES, SPECIALIZE};
use crate::strength::{Line, Rule, Strength};

/// Up to 20 nodes: of any fields, or with a ring, or such as the comparison is tried on.
pub fn small(random: &mut Random) -> Vec<Node> {
    match random.below(8) {
        0 => any(random, 1, 20),
        1 => ringed(random),
        _ => strength::small(random),
    }
}

/// So many nodes or fewer, but more than 20.
pub fn large(random: &mut Random, most: usize) -> Vec<Node> {
    let count = random.between(21, most);
    full(random, count)
}

/// So many nodes; half of the graphs so alike that most of them have an order.
pub fn full(random: &mut Random, count: usize) -> Vec<Node> {
    let nodes = if random.one_in(2) { any(random, count, count) } else { long_chains(random, count) };
    half_alike(random, nodes)
}

/// As many nodes as there may be. One graph in five is of [`full`], where some child lists take a second to be sorted;
/// the others have lists of fewer than 250 nodes, and half of those are deep.
pub fn largest(random: &mut Random) -> Vec<Node> {
    match random.below(5) {
        0 => full(random, MAX_NODES),
        1 | 2 => culls::full(random, MAX_NODES, false),
        _ => {
            let nodes = graphs::nodes(random, MAX_NODES);
            half_alike(random, nodes)
        }
    }
}

fn half_alike(random: &mut Random, nodes: Vec<Node>) -> Vec<Node> {
    if random.one_in(2) { alike(nodes) } else { nodes }
}

fn any(random: &mut Random, least: usize, most: usize) -> Vec<Node> {
    let count = random.between(least, most);
    graphs::nodes(random, count)
}

/// Document 01's ring below a node of a small graph.
fn ringed(random: &mut Random) -> Vec<Node> {
    let mut nodes = strength::small(random);
    nodes.truncate(16);
    let parent = random.below(nodes.len().min(3));
    add_ring(random, &mut nodes, parent);
    nodes
}

/// Adds a Reference and document 01's ring below a node: two Specializes with HAS_SPECIALIZES and the Reference as their
/// origin, and one without, of a depth between theirs. Now and then their sites make an order of it.
pub(super) fn add_ring(random: &mut Random, nodes: &mut Vec<Node>, parent: usize) {
    let (parent, origin) = (parent as u32, nodes.len() as u32);
    let shallowest = random.below(3) as u16;
    nodes.push(Node { parent, origin: parent, ..Node::reference(b"/R".into()) });
    for (flags, origin, deeper) in [(HAS_SPECIALIZES, origin, 0), (HAS_SPECIALIZES, origin, 2), (0, parent, 1)] {
        let path = random.pick(&["/R", "/S", "/T"]).into();
        let depth = shallowest + deeper;
        nodes.push(Node { arc: SPECIALIZE, flags, parent, origin, depth, ..Node::reference(path) });
    }
}

/// Whether a node number settles some two siblings. Only siblings are settled by a line of document 01's lists, so
/// nowhere else do node numbers decide.
pub fn numbers_decide(nodes: &[Node]) -> bool {
    let plain = Strength::new(nodes);
    let line = |&(a, b): &(u32, u32)| plain.of_siblings(a as usize, b as usize).1;
    let by_number = |line| {
        matches!(
            line,
            Line::NodeNumber | Line::Specializes(Rule::AuthoredNodeNumber) | Line::Specializes(Rule::NodeNumber)
        )
    };
    sibling_pairs(nodes, 0).iter().map(line).any(by_number)
}

/// Up to 20 nodes between which node numbers decide, or do not. Sibling numbers that all differ make the latter likely.
pub fn settled(random: &mut Random, by_numbers: bool) -> Vec<Node> {
    loop {
        let mut nodes = strength::small(random);
        if !by_numbers {
            nodes.iter_mut().for_each(|node| node.sibling = random.below(65_536) as u16);
        }
        if numbers_decide(&nodes) == by_numbers {
            return nodes;
        }
    }
}

/// The same nodes in another sequence, any in which parents and origins come before their nodes. All fields go with
/// their node; only parents and origins have their new numbers.
pub fn resequenced(random: &mut Random, nodes: &[Node]) -> Vec<Node> {
    let mut numbers: Vec<Option<u32>> = vec![None; nodes.len()];
    let mut sequence = Vec::with_capacity(nodes.len());
    while sequence.len() < nodes.len() {
        let moved = |at: usize| {
            Some(Node {
                parent: new(&numbers, nodes[at].parent)?,
                origin: new(&numbers, nodes[at].origin)?,
                ..nodes[at].clone()
            })
        };
        let next: Vec<usize> = (0..nodes.len()).filter(|&at| numbers[at].is_none() && moved(at).is_some()).collect();
        let at = random.pick(&next);
        sequence.extend(moved(at));
        numbers[at] = Some(sequence.len() as u32 - 1);
    }
    sequence
}

/// The new number of a parent or an origin, if it has one yet.
fn new(numbers: &[Option<u32>], link: u32) -> Option<u32> {
    if link == INVALID { Some(INVALID) } else { numbers[link as usize] }
}
