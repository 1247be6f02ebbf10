//! Graphs for the comparison of strength: small ones in which the rarer lines of document 01's lists meet, large ones
//! with long chains of origins, and the shapes that are measured.

use super::graphs::Node;
use crate::layout::INVALID;
use crate::random::Random;
use crate::record::{HAS_SPECIALIZES, INERT, INHERIT, REFERENCE, RELOCATE, ROOT, SPECIALIZE};

const PATHS: [&str; 6] = ["/A", "/A/b", "/A/b/c", "/M{v=-}", "/M{vw=}n", "/"];

/// What the nodes of one graph have in common.
struct Style {
    /// So few stacks and paths that sites coincide.
    stacks: usize,
    paths: usize,
    /// Depths go up to this one.
    deepest: usize,
    /// One Specialize in so many is without HAS_SPECIALIZES.
    unflagged: usize,
    /// One node in so many has its origin's site.
    same_sites: usize,
    /// Arcs, the more likely ones more than once.
    arcs: &'static [u8],
}

impl Style {
    fn any(random: &mut Random) -> Self {
        Self {
            stacks: random.between(1, 3),
            paths: random.between(1, PATHS.len()),
            deepest: random.pick(&[0, 0, 1, 3]),
            unflagged: random.pick(&[3, 20, 1_000]),
            same_sites: random.pick(&[1, 2, 2, 3]),
            arcs: random.pick(&[
                &[SPECIALIZE],
                &[SPECIALIZE, SPECIALIZE, SPECIALIZE, INHERIT, RELOCATE],
                &[SPECIALIZE, SPECIALIZE, INHERIT, INHERIT, RELOCATE, RELOCATE],
                &[SPECIALIZE, SPECIALIZE, INHERIT, 2, RELOCATE, REFERENCE, 5],
            ]),
        }
    }

    /// A node of an arc other than Root, with any site, that links to nothing yet.
    fn node(&self, random: &mut Random) -> Node {
        let arc = random.pick(self.arcs);
        let special = if arc == SPECIALIZE { !random.one_in(self.unflagged) } else { random.one_in(8) };
        Node {
            arc,
            flags: random.pick(&[0, 0, 0, 1, 2, 4, 240]) | if special { HAS_SPECIALIZES } else { 0 },
            stack: random.below(self.stacks) as u32,
            depth: random.between(0, self.deepest) as u16,
            sibling: random.pick(&[0, 0, 1, 2, 65_535]),
            has_specs: random.below(2) as u8,
            ..Node::reference(random.pick(&PATHS[..self.paths]).into())
        }
    }

    /// Node 0 and, mostly, the local root.
    fn roots(&self, random: &mut Random) -> Vec<Node> {
        let root = Node { parent: INVALID, origin: INVALID, ..self.root(random) };
        if random.one_in(20) { vec![root] } else { vec![root, self.root(random)] }
    }

    fn root(&self, random: &mut Random) -> Node {
        Node { arc: ROOT, flags: INERT | random.pick(&[0, HAS_SPECIALIZES]), ..self.node(random) }
    }

    /// A node with this parent and this origin.
    fn child(&self, random: &mut Random, nodes: &[Node], parent: usize, origin: usize) -> Node {
        let mut node = self.node(random);
        node.parent = parent as u32;
        node.origin = origin as u32;
        if random.one_in(self.same_sites) {
            let copied = &nodes[origin];
            (node.stack, node.path) = (copied.stack, copied.path.clone());
        }
        node
    }
}

/// Up to 20 nodes.
pub fn small(random: &mut Random) -> Vec<Node> {
    let style = Style::any(random);
    let mut nodes = style.roots(random);
    let count = random.between(nodes.len(), 20);
    while nodes.len() < count {
        let parent = small_parent(random, nodes.len());
        let origin = match random.below(8) {
            0 | 1 => parent,
            2..=4 => recent(random, nodes.len()),
            _ => random.below(nodes.len()),
        };
        nodes.push(style.child(random, &nodes, parent, origin));
    }
    nodes
}

/// Mostly the local root, so that its child list grows long.
fn small_parent(random: &mut Random, count: usize) -> usize {
    match random.below(10) {
        0..=5 => 1.min(count - 1),
        6 => random.below(count.min(4)),
        7 => count - 1,
        _ => random.below(count),
    }
}

/// One of the last three of `count` nodes.
fn recent(random: &mut Random, count: usize) -> usize {
    count.saturating_sub(random.between(1, 3))
}

/// 200 to 1,024 nodes.
pub fn large(random: &mut Random) -> Vec<Node> {
    let count = random.between(200, 1_024);
    long_chains(random, count)
}

/// So many nodes. Most have the last node of one of a few chains of origins as their origin, and become the last.
pub fn long_chains(random: &mut Random, count: usize) -> Vec<Node> {
    let deepest = random.pick(&[0, 0, 0, 2]);
    let style = Style { deepest, ..Style::any(random) };
    let mut nodes = style.roots(random);
    let mut ends = vec![nodes.len() - 1; random.pick(&[1, 2, 3, 6])];
    let (nested, branching) = (random.pick(&[3, 10, 1_000]), random.pick(&[40, 300, 5_000]));
    while nodes.len() < count {
        let chain = random.below(ends.len());
        let origin = if random.one_in(branching) { random.below(nodes.len()) } else { ends[chain] };
        let parent = if random.one_in(nested) { random.below(nodes.len()) } else { 1.min(nodes.len() - 1) };
        ends[chain] = nodes.len();
        nodes.push(style.child(random, &nodes, parent, origin));
    }
    nodes
}

/// Makes a graph of so many nodes.
pub type Shape = fn(usize) -> Vec<Node>;

/// The shapes of which comparing is measured, and their names.
pub const SHAPES: [(&str, Shape); 5] =
    [("chain", chain), ("chains", two_chains), ("star", star), ("mixed", mixed), ("origins", long_origins)];

/// Pairs that are measured on a graph: so many random ones, and at least so many of siblings.
pub const MEASURED_PAIRS: usize = 10_000;

/// `count` nodes, the third and later ones made by `child` from their numbers.
pub fn shaped(count: usize, child: impl FnMut(usize) -> Node) -> Vec<Node> {
    let path = b"/World/Line".to_vec();
    let root = Node { arc: ROOT, flags: INERT, parent: INVALID, origin: INVALID, ..Node::reference(path.clone()) };
    let local_root = Node { arc: ROOT, ..Node::reference(path) };
    [root, local_root].into_iter().chain((2..count).map(child)).collect()
}

/// A node with these links, HAS_SPECIALIZES where it is a Specialize.
pub(super) fn linked(arc: u8, parent: usize, origin: usize, path: Vec<u8>) -> Node {
    let flags = if arc == SPECIALIZE { HAS_SPECIALIZES } else { 0 };
    Node { arc, flags, parent: parent as u32, origin: origin as u32, ..Node::reference(path) }
}

/// Each node is the parent of the next, so there are no siblings.
pub(super) fn chain(count: usize) -> Vec<Node> {
    let mut random = Random::new(1);
    shaped(count, |at| linked(REFERENCE, at - 1, at - 1, super::path(&mut random, 22)))
}

/// Two chains side by side: their first nodes are the only siblings.
pub(super) fn two_chains(count: usize) -> Vec<Node> {
    let mut random = Random::new(1);
    shaped(count, |at| {
        let above = at.saturating_sub(2).max(1);
        linked(REFERENCE, above, above, super::path(&mut random, 22))
    })
}

/// All nodes below the local root, all authored.
pub(super) fn star(count: usize) -> Vec<Node> {
    let mut random = Random::new(2);
    shaped(count, |_| {
        let arc = random.pick(&[INHERIT, REFERENCE, SPECIALIZE, SPECIALIZE]);
        Node { sibling: random.below(4) as u16, ..linked(arc, 1, 1, super::path(&mut random, 22)) }
    })
}

/// Any tree of all arcs; half of the nodes have another origin than their parent.
pub(super) fn mixed(count: usize) -> Vec<Node> {
    let mut random = Random::new(3);
    shaped(count, |at| {
        let parent = if random.one_in(2) { 1 } else { random.between(1, at - 1) };
        let origin = if random.one_in(2) { parent } else { random.between(1, at - 1) };
        let arc = random.pick(&[INHERIT, 2, RELOCATE, REFERENCE, 5, SPECIALIZE, SPECIALIZE]);
        Node { depth: random.below(3) as u16, ..linked(arc, parent, origin, super::path(&mut random, 22)) }
    })
}

/// Specializes below the local root in four chains of origins, each as long as a quarter of the nodes. Half of them have
/// their origin's site; those of two chains are HAS_SPECIALIZES, so that all kinds of pairs meet.
pub(super) fn long_origins(count: usize) -> Vec<Node> {
    let mut random = Random::new(4);
    let mut paths: Vec<Vec<u8>> = vec![Vec::new(); 2];
    shaped(count, |at| {
        let origin = at.saturating_sub(4).max(1);
        let path = if at % 8 < 4 || origin == 1 { super::path(&mut random, 22) } else { paths[origin].clone() };
        paths.push(path.clone());
        let flags = if at % 4 < 2 { HAS_SPECIALIZES } else { 0 };
        Node { flags, ..linked(SPECIALIZE, 1, origin, path) }
    })
}

/// The nodes with one depth for each arc, and HAS_SPECIALIZES on each Specialize and on nothing else: where siblings of
/// one arc differ in these, there are rings.
pub fn alike(mut nodes: Vec<Node>) -> Vec<Node> {
    for node in &mut nodes {
        node.depth = u16::from(node.arc % 3);
        node.flags = node.flags & !HAS_SPECIALIZES | if node.arc == SPECIALIZE { HAS_SPECIALIZES } else { 0 };
    }
    nodes
}

/// The pairs of siblings, each once, and all of them again until there are at least so many.
pub fn sibling_pairs(nodes: &[Node], least: usize) -> Vec<(u32, u32)> {
    let of_one_parent = |&(a, b): &(usize, usize)| nodes[a].parent == nodes[b].parent;
    let all = (1..nodes.len()).flat_map(|a| (a + 1..nodes.len()).map(move |b| (a, b)));
    let pairs: Vec<(u32, u32)> = all.filter(of_one_parent).map(|(a, b)| (a as u32, b as u32)).collect();
    pairs.repeat(least.div_ceil(pairs.len().max(1)).max(1))
}

/// So many pairs of any nodes, the same ones each time.
pub fn random_pairs(nodes: &[Node], count: usize) -> Vec<(u32, u32)> {
    let mut random = Random::new(nodes.len() as u64);
    (0..count).map(|_| (random.below(nodes.len()) as u32, random.below(nodes.len()) as u32)).collect()
}
