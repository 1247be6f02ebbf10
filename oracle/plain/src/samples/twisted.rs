//! Graphs that may be slow to order, or have no order: long child lists with flags, copies, chains of origins, class
//! arcs, R below R, a few depths and rings, in any mixture.

use super::graphs::Node;
use super::orders::{self, add_ring};
use super::strength::alike;
use crate::layout::{INVALID, MAX_NODES};
use crate::random::Random;
use crate::record::{HAS_SPECIALIZES, INERT, INHERIT, REFERENCE, RELOCATE, ROOT, SPECIALIZE};

const PATHS: [&str; 4] = ["/A", "/A{v=}b", "/A/b/c", "/B{v=-|}"];

/// What the nodes of one graph have in common.
struct Style {
    stacks: usize,
    paths: usize,
    /// Depths go up to this one.
    deepest: usize,
    /// One node in so many is without HAS_SPECIALIZES; 0 for none.
    unflagged: usize,
    /// One node in so many has its origin's site.
    same_sites: usize,
    /// Arcs, the more likely ones more than once.
    arcs: &'static [u8],
    local_root: usize,
    /// Class arcs below the local root, each the parent of the next.
    classes: usize,
    /// Most nodes are below one of so many nodes, the last of the class arcs the first of them.
    hubs: usize,
    /// One node in so many is below any other.
    elsewhere: usize,
    /// One node in so many is authored, and one in so many has any origin; the others have the node so many before.
    authored: usize,
    any_origin: usize,
    back: usize,
}

impl Style {
    fn any(random: &mut Random, count: usize) -> Self {
        let (anywhere, some) = (random.below(count), random.below(count / 2));
        Self {
            stacks: random.between(1, 3),
            paths: random.between(1, PATHS.len()),
            deepest: random.pick(&[0, 0, 0, 1, 1, 3]),
            unflagged: random.pick(&[0, 0, 2, 3, 8, 100]),
            same_sites: random.pick(&[1, 2, 3, 1_000]),
            arcs: random.pick(&[
                &[SPECIALIZE],
                &[SPECIALIZE, SPECIALIZE, SPECIALIZE, INHERIT],
                &[SPECIALIZE, SPECIALIZE, INHERIT, RELOCATE, REFERENCE],
                &[REFERENCE],
                &[INHERIT, 2, RELOCATE, REFERENCE, 5, SPECIALIZE, SPECIALIZE],
            ]),
            local_root: random.pick(&[0, 1, 1, 1, 1, anywhere, count - 1]),
            classes: random.pick(&[0, 0, 0, 3, some]),
            hubs: random.pick(&[1, 1, 2, 3]),
            elsewhere: random.pick(&[4, 8, 100, 5_000]),
            authored: random.pick(&[2, 3, 20, 5_000]),
            any_origin: random.pick(&[1, 2, 6, 100, 5_000]),
            back: random.pick(&[1, 2, 2, 3, 4, 7]),
        }
    }

    /// The node with this number, below and from nodes that are there.
    fn node(&self, random: &mut Random, nodes: &[Node]) -> Node {
        let at = nodes.len();
        let (arc, parent) = self.arc_and_parent(random, at);
        let origin = self.origin(random, at, parent);
        let flagged = self.unflagged == 0 || !random.one_in(self.unflagged);
        let mut node = Node {
            arc,
            flags: if flagged { HAS_SPECIALIZES } else { 0 },
            stack: random.below(self.stacks) as u32,
            parent: parent as u32,
            origin: origin as u32,
            depth: random.between(0, self.deepest) as u16,
            sibling: random.pick(&[0, 0, 0, 1, 2, 65_535]),
            ..Node::reference(random.pick(&PATHS[..self.paths]).into())
        };
        if random.one_in(self.same_sites) {
            (node.stack, node.path) = (nodes[origin].stack, nodes[origin].path.clone());
        }
        node
    }

    fn arc_and_parent(&self, random: &mut Random, at: usize) -> (u8, usize) {
        if at == self.local_root {
            return (ROOT, 0);
        }
        if at < 2 + self.classes {
            return (INHERIT, at - 1);
        }
        let arc = random.pick(self.arcs);
        if random.one_in(self.elsewhere) {
            return (arc, if random.one_in(2) { at - 1 } else { random.below(at) });
        }
        (arc, (1 + self.classes + random.below(self.hubs)).min(at - 1))
    }

    fn origin(&self, random: &mut Random, at: usize, parent: usize) -> usize {
        if random.one_in(self.authored) {
            parent
        } else if random.one_in(self.any_origin) {
            random.below(at)
        } else {
            at.saturating_sub(self.back).max(parent.min(at - 1))
        }
    }
}

/// So many nodes. One graph in six has rings where there is room for them.
pub fn twisted(random: &mut Random, count: usize) -> Vec<Node> {
    const RING: usize = 4;
    let style = Style::any(random, count);
    let root = Node { arc: ROOT, flags: INERT, parent: INVALID, origin: INVALID, ..Node::reference(b"/A".into()) };
    let mut nodes = vec![root];
    let rings = if random.one_in(6) { random.between(1, 3) } else { 0 };
    while nodes.len() < count {
        if count - nodes.len() <= RING * rings && nodes.len() + RING <= count && nodes.len() > style.local_root {
            let parent = random.pick(&[0, nodes.len() / 2, nodes.len() - 1]);
            add_ring(random, &mut nodes, parent);
        } else {
            nodes.push(style.node(random, &nodes));
        }
    }
    nodes
}

/// As many nodes as there may be; half of the graphs so alike that many of them have an order.
pub fn largest(random: &mut Random) -> Vec<Node> {
    let nodes = twisted(random, MAX_NODES);
    if random.one_in(2) { alike(nodes) } else { nodes }
}

/// Up to 24 nodes, twisted or such as ordering is tried on.
pub fn small(random: &mut Random) -> Vec<Node> {
    if random.one_in(3) {
        return orders::small(random);
    }
    let count = random.between(1, 24);
    twisted(random, count)
}

/// Up to 1,024 nodes, the same; a third so alike that most of them have an order.
pub fn large(random: &mut Random) -> Vec<Node> {
    let count = random.between(30, MAX_NODES);
    let nodes = match random.below(4) {
        0 => orders::large(random, 400),
        1 => orders::largest(random),
        _ => twisted(random, count),
    };
    if random.one_in(3) { alike(nodes) } else { nodes }
}
