//! The shapes of which ordering is measured, each with an order at every size, and two without an order.

use super::graphs::Node;
use super::strength::{Shape, alike, chain, linked, long_origins, mixed, shaped, star, two_chains};
use crate::random::Random;
use crate::record::{HAS_SPECIALIZES, INHERIT, REFERENCE, SPECIALIZE};

/// The shapes and their names. From `pairs` to `deep` a comparison may have to follow origins, and to ask again, far up;
/// the last three are lists whose neighbours do not say whether they are sorted.
pub const ORDERED_SHAPES: [(&str, Shape); 21] = [
    ("chain", chain),
    ("chains", two_chains),
    ("star", star),
    ("mixed", |count| alike(mixed(count))),
    ("origins", |count| alike(long_origins(count))),
    ("late", late_local_root),
    ("lists", lists_of_16),
    ("authored", flagged_authored),
    ("copies", flagged_copies),
    ("depths", copies_of_depths),
    ("one-root", copies_of_one_root),
    ("local", local_copies),
    ("pairs", |count| chains_of_pairs(count, 0, 1)),
    ("two-pairs", |count| chains_of_pairs(count, 0, 2)),
    ("classes", |count| chains_of_pairs(count, count / 3, 2)),
    ("combs", combs),
    ("unflagged", |count| unflagged_origins(count, 4)),
    ("deep", |count| unflagged_origins(count, 1)),
    ("among", flagged_among_unflagged),
    ("turned", flagged_among_depths),
    ("nested", nested_roots),
];

/// Shapes without an order, in which ordering compares through origins to show a cycle.
pub const CYCLES: [(&str, Shape); 2] = [("pairs-in-a-cycle", pairs_in_a_cycle), ("chain-in-a-cycle", chain_in_a_cycle)];

/// `pairs` whose last three nodes are in a cycle, the first two of them compared through all pairs below: two HAS_SPECIALIZES of depths 1
/// and 3 and one without of depth 2.
fn pairs_in_a_cycle(count: usize) -> Vec<Node> {
    let mut nodes = chains_of_pairs(count, 0, 1);
    if let [.., first, second, third] = &mut nodes[..] {
        (first.depth, second.depth, third.depth) = (1, 3, 2);
        (third.flags, third.origin) = (0, third.parent);
    }
    nodes
}

/// `deep` and a cycle of three: two HAS_SPECIALIZES copies of node 2, whose origins are below the last two of the chain, so that they
/// are compared through all of it; and one without the flag, of a depth between theirs.
fn chain_in_a_cycle(count: usize) -> Vec<Node> {
    let node = |arc, parent, origin, depth| Node { depth, ..linked(arc, parent, origin, b"/A".into()) };
    let last = count - 6;
    let mut nodes = unflagged_origins(last + 1, 1);
    nodes.push(node(REFERENCE, last - 1, 2, 0));
    nodes.push(node(REFERENCE, last, 2, 0));
    nodes.push(node(SPECIALIZE, 1, last + 1, 1));
    nodes.push(node(SPECIALIZE, 1, last + 2, 3));
    nodes.push(Node { flags: 0, ..node(SPECIALIZE, 1, 1, 2) });
    nodes
}

/// A node with these links and any path.
fn named(random: &mut Random, arc: u8, parent: usize, origin: usize) -> Node {
    linked(arc, parent, origin, super::path(random, 22))
}

/// All nodes below node 0, the local root last.
fn late_local_root(count: usize) -> Vec<Node> {
    let mut nodes = star(count + 1);
    let local_root = nodes.remove(1);
    nodes.truncate(count - 1);
    nodes.iter_mut().skip(1).for_each(|node| (node.parent, node.origin) = (0, 0));
    nodes.push(local_root);
    nodes
}

/// Sixteen below each node, as far as they go, all authored.
fn lists_of_16(count: usize) -> Vec<Node> {
    let mut random = Random::new(9);
    shaped(count, |at| {
        let parent = 1 + (at - 2) / 16;
        let arc = random.pick(&[INHERIT, REFERENCE, REFERENCE, SPECIALIZE]);
        Node { sibling: random.below(8) as u16, ..named(&mut random, arc, parent, parent) }
    })
}

/// All HAS_SPECIALIZES and authored, of any depth and sibling number.
fn flagged_authored(count: usize) -> Vec<Node> {
    let mut random = Random::new(5);
    shaped(count, |_| {
        let (depth, sibling) = (random.below(3) as u16, random.below(1_000) as u16);
        Node { depth, sibling, ..named(&mut random, SPECIALIZE, 1, 1) }
    })
}

/// All HAS_SPECIALIZES, of one depth, with any of those before as the origin.
fn flagged_copies(count: usize) -> Vec<Node> {
    let mut random = Random::new(6);
    shaped(count, |at| {
        let (origin, sibling) = (random.between(1, at - 1), random.below(1_000) as u16);
        Node { sibling, ..named(&mut random, SPECIALIZE, 1, origin) }
    })
}

/// Half References below the local root, half HAS_SPECIALIZES copies of them, with the depth that goes with the origin.
fn copies_of_depths(count: usize) -> Vec<Node> {
    let mut random = Random::new(7);
    let half = count / 2;
    shaped(count, |at| {
        if at < half {
            return Node { sibling: random.below(1_000) as u16, ..named(&mut random, REFERENCE, 1, 1) };
        }
        let origin = random.between(2, half - 1);
        Node { depth: (origin % 3) as u16, ..named(&mut random, SPECIALIZE, 1, origin) }
    })
}

/// All HAS_SPECIALIZES copies of one Reference, of any depth, which does not count between them.
fn copies_of_one_root(count: usize) -> Vec<Node> {
    let mut random = Random::new(14);
    shaped(count, |at| {
        if at == 2 {
            return named(&mut random, REFERENCE, 1, 1);
        }
        Node { depth: random.below(5) as u16, ..named(&mut random, SPECIALIZE, 1, 2) }
    })
}

/// The same of one depth: in the local root's stack and in another, implied and not.
fn local_copies(count: usize) -> Vec<Node> {
    let mut random = Random::new(16);
    let copied = named(&mut random, REFERENCE, 1, 1);
    shaped(count, |at| {
        let mut node = if at == 2 { copied.clone() } else { named(&mut random, SPECIALIZE, 1, 2) };
        if at % 3 == 0 {
            node.path = copied.path.clone();
        }
        Node { stack: u32::from(at % 4 == 1), ..node }
    })
}

/// So many Inherits, each the parent of the next, and below the last, or below the local root, HAS_SPECIALIZES siblings:
/// one authored for each chain, and the rest in pairs, whose origins are the pair before in their chain. Two of a pair
/// are settled where the pairs begin. All paths have two bytes.
fn chains_of_pairs(count: usize, classes: usize, chains: usize) -> Vec<Node> {
    let first = 2 + classes;
    let mut nodes = shaped(count, |at| {
        if at < first {
            return linked(INHERIT, at - 1, at - 1, Vec::new());
        }
        let place = at - first;
        let origin = match place / chains {
            0 => first - 1,
            1 | 2 => first + place % chains,
            _ => at - 2 * chains,
        };
        linked(SPECIALIZE, first - 1, origin, Vec::new())
    });
    nodes.iter_mut().for_each(|node| node.path = b"/A".into());
    nodes
}

/// A third of the nodes each the parent of the next, a third one more below each of these, and a third HAS_SPECIALIZES
/// copies of those below the local root: two origins are found to part far from the top.
fn combs(count: usize) -> Vec<Node> {
    let mut random = Random::new(17);
    let third = count / 3;
    let (teeth, copies) = (2 + third, 2 + 2 * third);
    shaped(count, |at| {
        if at < copies {
            let parent = if at < teeth { at - 1 } else { at - third };
            return named(&mut random, REFERENCE, parent, parent);
        }
        let origin = random.between(teeth, copies - 1);
        named(&mut random, SPECIALIZE, 1, origin)
    })
}

/// References below the local root in so many chains of origins. The first of each settle all: two neighbours of one
/// chain ask as often as there are nodes before them.
fn unflagged_origins(count: usize, chains: usize) -> Vec<Node> {
    let mut random = Random::new(12);
    shaped(count, |at| {
        let origin = at.saturating_sub(chains).max(1);
        Node { sibling: (chains - at % chains) as u16, ..named(&mut random, REFERENCE, 1, origin) }
    })
}

/// Copies of one Specialize, every second one HAS_SPECIALIZES, already in order.
fn flagged_among_unflagged(count: usize) -> Vec<Node> {
    shaped(count, |at| {
        let origin = if at == 2 { 1 } else { 2 };
        let flags = if at % 2 == 0 && at > 2 { HAS_SPECIALIZES } else { 0 };
        let node = linked(SPECIALIZE, 1, origin, format!("/World/Line{at}").into());
        Node { flags, sibling: at as u16, ..node }
    })
}

/// Specializes: every second one HAS_SPECIALIZES, authored or a copy, with its sibling numbers falling; the others of
/// depths around theirs.
fn flagged_among_depths(count: usize) -> Vec<Node> {
    let mut random = Random::new(8);
    shaped(count, |at| {
        let origin = if at % 4 == 0 && at > 8 { 2 } else { 1 };
        let node = named(&mut random, SPECIALIZE, 1, origin);
        if at % 2 == 0 {
            return Node { sibling: 3_000 - at as u16, depth: 1, ..node };
        }
        Node { flags: 0, depth: (at % 7 / 3 * 2) as u16, ..node }
    })
}

/// HAS_SPECIALIZES copies of two nodes, one below the other: the depths differ, and do not count.
fn nested_roots(count: usize) -> Vec<Node> {
    let mut random = Random::new(15);
    shaped(count, |at| match at {
        2 | 3 => named(&mut random, REFERENCE, at - 1, at - 1),
        _ if at % 2 == 0 => Node { depth: 2, ..named(&mut random, SPECIALIZE, 1, 2) },
        _ => Node { depth: 1, ..named(&mut random, SPECIALIZE, 1, 3) },
    })
}
