//! Graphs to be culled and erased: small ones in which much is below its introduction and without specs, larger ones,
//! and the shapes that are measured.

use super::graphs::Node;
use super::strength::{Shape, shaped};
use crate::layout::INVALID;
use crate::path::prim_count;
use crate::random::Random;
use crate::record::{CULLED, HAS_SPECIALIZES, INERT, INHERIT, REFERENCE, ROOT, SPECIALIZE};

/// With 0 to 3 prims, most with 2: what is at depth 1 below them was introduced above.
const PATHS: [&str; 10] =
    ["/A/b", "/A/b", "/C/b", "/C{vw=}b", "/A/b{v=x}", "/A/b/c", "/C/b{v=|}c", "/A", "/A{v=9-}{w=}", "/"];

/// What the nodes of one graph have in common.
struct Style {
    stacks: usize,
    /// One node in so many has specs, or is INERT, or is at its introduction.
    specs: usize,
    inert: usize,
    introduced: usize,
    /// One node in so many is CULLED from the start; 0 for none.
    culled: usize,
    /// One node in so many has a depth beyond its parent's path, which makes the graph shallow.
    beyond: usize,
    /// Arcs, the more likely ones more than once.
    arcs: &'static [u8],
}

impl Style {
    fn any(random: &mut Random, culled: bool) -> Self {
        Self {
            stacks: random.between(1, 3),
            specs: random.pick(&[2, 3, 6, 20]),
            inert: random.pick(&[2, 6, 20]),
            introduced: random.pick(&[3, 8, 20]),
            culled: if culled { random.pick(&[2, 3, 6]) } else { 0 },
            beyond: random.pick(&[20, 1_000, 1_000]),
            arcs: random.pick(&[
                &[INHERIT],
                &[INHERIT, INHERIT, REFERENCE],
                &[INHERIT, 2, 3, REFERENCE, 5],
                &[INHERIT, INHERIT, 2, 3, REFERENCE, 5, SPECIALIZE],
            ]),
        }
    }

    /// A node of an arc other than Root, with any site, that links to nothing yet.
    fn node(&self, random: &mut Random) -> Node {
        let arc = random.pick(self.arcs);
        let special = if arc == SPECIALIZE { HAS_SPECIALIZES } else { 0 };
        let inert = if random.one_in(self.inert) { INERT } else { 0 };
        let culled = if self.culled > 0 && random.one_in(self.culled) { CULLED } else { 0 };
        Node {
            arc,
            flags: inert | culled | special | random.pick(&[0, 0, 0, 0, 4, 16, 240]),
            stack: random.below(self.stacks) as u32,
            layer: random.below(3) as u32,
            sibling: random.pick(&[0, 0, 1, 2, 65_535]),
            spec_from: random.pick(&[0, 0, 3]),
            restriction: random.pick(&[0, 0, 4]),
            has_specs: random.one_in(self.specs).into(),
            ..Node::reference(random.pick(&PATHS).into())
        }
    }

    /// Node 0, or the local root, which may be below its introduction too and is never culled all the same.
    fn root(&self, random: &mut Random, parent: u32, origin: u32) -> Node {
        let (node, depth) = (self.node(random), random.pick(&[0, 1, 2, 2]));
        let flags = node.flags & !CULLED | if parent == INVALID { INERT } else { 0 };
        Node { arc: ROOT, flags, parent, origin, stack: 0, depth, path: b"/A/b".into(), ..node }
    }

    /// A node with this parent and this origin, mostly below its introduction.
    fn child(&self, random: &mut Random, nodes: &[Node], parent: usize, origin: usize) -> Node {
        let prims = u16::from(prim_count(&nodes[parent].path).unwrap_or(0));
        let depth = match random.below(self.introduced) {
            _ if random.one_in(self.beyond) => prims + random.pick(&[1, 2, 300]),
            0 => prims,
            _ => random.below(prims.into()) as u16,
        };
        Node { parent: parent as u32, origin: origin as u32, depth, ..self.node(random) }
    }
}

/// Up to 20 nodes; CULLED stands on some of them, or on none.
pub fn small(random: &mut Random, culled: bool) -> Vec<Node> {
    let count = random.between(if culled { 3 } else { 1 }, 20);
    let mut nodes = full(random, count, culled);
    if culled && !nodes.iter().any(|node| node.flags & CULLED != 0) {
        let one = nodes.iter_mut().rfind(|node| node.arc != ROOT);
        one.into_iter().for_each(|node| node.flags |= CULLED);
    }
    nodes
}

/// So many nodes. The local root is mostly node 1, and in some graphs later or missing.
pub fn full(random: &mut Random, count: usize, culled: bool) -> Vec<Node> {
    let style = Style::any(random, culled);
    let local_root = match random.below(16) {
        0 => 0,
        1 | 2 => random.below(count.min(6)),
        _ => 1,
    };
    let (near, copies) = (random.pick(&[2, 4, 20]), random.pick(&[2, 3, 8]));
    let mut nodes = vec![style.root(random, INVALID, INVALID)];
    for at in 1..count {
        let parent = if random.one_in(near) { random.below(at.min(4)) } else { recent(random, at) };
        let origin = if random.one_in(copies) { random.below(at) } else { parent };
        let node = if at == local_root {
            let origin = random.pick(&[0, 0, 0, origin as u32]);
            style.root(random, 0, origin)
        } else {
            style.child(random, &nodes, parent, origin)
        };
        nodes.push(node);
    }
    nodes
}

/// One of the last nodes of `count`, mostly.
fn recent(random: &mut Random, count: usize) -> usize {
    let back = random.pick(&[1, 1, 2, 3, count]);
    count.saturating_sub(random.between(1, back))
}

/// The shapes that are measured. Nodes are below their introduction; half of the chain, of the star and some of the
/// tree are without specs.
pub const CULLED_SHAPES: [(&str, Shape); 3] = [("chain", chain), ("star", star), ("tree", tree)];

/// A Reference or another arc in another stack than the local root's.
fn linked(arc: u8, parent: usize, origin: usize, has_specs: bool, path: Vec<u8>) -> Node {
    let flags = if arc == SPECIALIZE { HAS_SPECIALIZES } else { 0 };
    let (parent, origin) = (parent as u32, origin as u32);
    Node { arc, flags, parent, origin, has_specs: has_specs.into(), stack: 1, ..Node::reference(path) }
}

/// Each node is the parent of the next; the second half is without specs.
fn chain(count: usize) -> Vec<Node> {
    let mut random = Random::new(1);
    shaped(count, |at| linked(REFERENCE, at - 1, at - 1, at < count / 2, super::path(&mut random, 22)))
}

/// All nodes below the local root; every second one is without specs.
fn star(count: usize) -> Vec<Node> {
    let mut random = Random::new(2);
    shaped(count, |at| {
        let node = linked(REFERENCE, 1, 1, at % 2 == 0, super::path(&mut random, 22));
        Node { sibling: at as u16, ..node }
    })
}

/// Any tree of all arcs, one node in five with specs; one in four has another origin than its parent, and Inherits are
/// in the local root's stack.
fn tree(count: usize) -> Vec<Node> {
    let mut random = Random::new(3);
    shaped(count, |at| {
        let parent = random.between(1.max(at / 4), at - 1);
        let origin = if random.one_in(4) { random.between(1, at - 1) } else { parent };
        let arc = random.pick(&[INHERIT, 2, 3, REFERENCE, 5, SPECIALIZE]);
        let node = linked(arc, parent, origin, random.one_in(5), super::path(&mut random, 22));
        Node { stack: u32::from(arc != INHERIT), ..node }
    })
}
