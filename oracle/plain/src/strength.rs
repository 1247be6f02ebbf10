//! Document 01, "Strength": which of two nodes is the stronger (Less), and which line settles two siblings. The nodes
//! must be such as a snapshot may have.

use std::cmp::Ordering;
use std::cmp::Ordering::{Equal, Greater, Less};

use crate::path::prim_count;
use crate::record::{HAS_SPECIALIZES, INHERIT, RELOCATE, ROOT, SPECIALIZE};
use crate::samples::graphs::Node;

/// What settles two siblings: a line of document 01's list for siblings, or of its list for two that are
/// HAS_SPECIALIZES.
#[derive(Debug, Clone, Copy, PartialEq, Eq)]
pub enum Line {
    Arc,
    Depth,
    Origins,
    SiblingNumber,
    NodeNumber,
    Specializes(Rule),
}

/// A part of the list for two that are HAS_SPECIALIZES.
#[derive(Debug, Clone, Copy, PartialEq, Eq)]
pub enum Rule {
    Depth,
    AuthoredSiblingNumber,
    AuthoredNodeNumber,
    Implied,
    NodeNumber,
    Roots,
    ClassDepth,
    Hops,
    LocalImplied,
    Origins,
}

/// The rules, each with the number of its line and its words.
pub const RULES: [(Rule, &str); 10] = [
    (Rule::Depth, "1 larger depth"),
    (Rule::AuthoredSiblingNumber, "2 authored: sibling number"),
    (Rule::AuthoredNodeNumber, "2 authored: node number"),
    (Rule::Implied, "2 implied over not implied"),
    (Rule::NodeNumber, "2 not authored: node number"),
    (Rule::Roots, "3 strength of R"),
    (Rule::ClassDepth, "4 smaller class depth"),
    (Rule::Hops, "4 more hops"),
    (Rule::LocalImplied, "4 implied over not, in the local root's stack"),
    (Rule::Origins, "4 strength of the origins"),
];

/// A graph to be asked.
pub struct Strength<'a> {
    nodes: &'a [Node],
    local_root: Option<usize>,
}

impl<'a> Strength<'a> {
    pub fn new(nodes: &'a [Node]) -> Self {
        let local_root = (1..nodes.len()).find(|&n| nodes[n].arc == ROOT);
        Self { nodes, local_root }
    }

    /// "The same node is Equal; an ancestor is stronger (Less); else compare the siblings where the chains part."
    pub fn of_nodes(&self, a: usize, b: usize) -> Ordering {
        let (x, y) = (self.chain(a), self.chain(b));
        match x.iter().zip(&y).find(|(p, q)| p != q) {
            Some((&p, &q)) => self.of_siblings(p, q).0,
            None => x.len().cmp(&y.len()),
        }
    }

    /// From node 0 down to the node.
    fn chain(&self, node: usize) -> Vec<usize> {
        let mut chain = vec![node];
        let mut at = node;
        while at > 0 {
            at = self.parent(at);
            chain.push(at);
        }
        chain.reverse();
        chain
    }

    /// "Siblings, first line that differs."
    pub fn of_siblings(&self, a: usize, b: usize) -> (Ordering, Line) {
        let (x, y) = (&self.nodes[a], &self.nodes[b]);
        if a == b {
            return (Equal, Line::NodeNumber);
        }
        if x.arc != y.arc {
            return (x.arc.cmp(&y.arc), Line::Arc);
        }
        if x.flags & y.flags & HAS_SPECIALIZES != 0 {
            let (ordering, rule) = self.of_specializes(a, b);
            return (ordering, Line::Specializes(rule));
        }
        if x.depth != y.depth {
            return (y.depth.cmp(&x.depth), Line::Depth);
        }
        if x.origin != y.origin {
            return (self.of_nodes(self.origin(a), self.origin(b)), Line::Origins);
        }
        if x.sibling != y.sibling {
            return (x.sibling.cmp(&y.sibling), Line::SiblingNumber);
        }
        (a.cmp(&b), Line::NodeNumber)
    }

    /// The list for two that are HAS_SPECIALIZES.
    fn of_specializes(&self, a: usize, b: usize) -> (Ordering, Rule) {
        let ((ra, _), (rb, _)) = (self.origin_root(a), self.origin_root(b));
        let (x, y) = (&self.nodes[a], &self.nodes[b]);
        if x.depth != y.depth && !self.is_met(ra, rb) && !self.is_met(rb, ra) {
            return (y.depth.cmp(&x.depth), Rule::Depth);
        }
        if x.origin == y.origin {
            return if self.is_authored(a) { self.of_authored(a, b) } else { self.of_copies(a, b) };
        }
        if ra != rb {
            return (self.of_nodes(ra, rb), Rule::Roots);
        }
        self.of_one_root(a, b)
    }

    /// "2. Same origin: authored, sibling number, then node number".
    fn of_authored(&self, a: usize, b: usize) -> (Ordering, Rule) {
        let (x, y) = (self.nodes[a].sibling, self.nodes[b].sibling);
        if x != y { (x.cmp(&y), Rule::AuthoredSiblingNumber) } else { (a.cmp(&b), Rule::AuthoredNodeNumber) }
    }

    /// "Else implied over not implied, then node number."
    fn of_copies(&self, a: usize, b: usize) -> (Ordering, Rule) {
        match self.implied_first(a, b) {
            Equal => (a.cmp(&b), Rule::NodeNumber),
            settled => (settled, Rule::Implied),
        }
    }

    /// "4. Smaller class depth; more hops; if neither is authored and both have the local root's stack, implied over
    /// not; node strength of the origins."
    fn of_one_root(&self, a: usize, b: usize) -> (Ordering, Rule) {
        let (x, y) = (self.class_depth(a), self.class_depth(b));
        if x != y {
            return (x.cmp(&y), Rule::ClassDepth);
        }
        let ((_, x), (_, y)) = (self.origin_root(a), self.origin_root(b));
        if x != y {
            return (y.cmp(&x), Rule::Hops);
        }
        let copies = !self.is_authored(a) && !self.is_authored(b);
        if copies && self.is_local(a) && self.is_local(b) && self.implied_first(a, b) != Equal {
            return (self.implied_first(a, b), Rule::LocalImplied);
        }
        (self.of_nodes(self.origin(a), self.origin(b)), Rule::Origins)
    }

    fn implied_first(&self, a: usize, b: usize) -> Ordering {
        match (self.is_implied(a), self.is_implied(b)) {
            (true, false) => Less,
            (false, true) => Greater,
            _ => Equal,
        }
    }

    /// The parent of a node other than 0.
    fn parent(&self, node: usize) -> usize {
        self.nodes[node].parent as usize
    }

    /// The origin of a node other than 0.
    fn origin(&self, node: usize) -> usize {
        self.nodes[node].origin as usize
    }

    /// "Authored: origin is the parent." Node 0 has neither.
    fn is_authored(&self, node: usize) -> bool {
        self.nodes[node].origin == self.nodes[node].parent
    }

    fn same_site(&self, a: usize, b: usize) -> bool {
        let (x, y) = (&self.nodes[a], &self.nodes[b]);
        x.stack == y.stack && x.path == y.path
    }

    fn is_implied(&self, node: usize) -> bool {
        !self.same_site(node, self.origin(node))
    }

    fn is_propagated(&self, node: usize) -> bool {
        self.nodes[node].arc == SPECIALIZE && Some(self.parent(node)) == self.local_root && !self.is_implied(node)
    }

    /// Whether the node has the local root's stack.
    fn is_local(&self, node: usize) -> bool {
        self.local_root.is_some_and(|root| self.nodes[root].stack == self.nodes[node].stack)
    }

    /// "R(n) follows origins until one equals the parent or is missing; the steps are its hops."
    fn origin_root(&self, node: usize) -> (usize, usize) {
        let (mut at, mut hops) = (node, 0);
        while !self.is_authored(at) {
            at = self.origin(at);
            hops += 1;
        }
        (at, hops)
    }

    /// Whether `node` is met from `from`, "itself counted, going to the origin from a propagated specializes and else
    /// to the parent".
    fn is_met(&self, node: usize, from: usize) -> bool {
        let mut at = from;
        while at > node {
            at = if self.is_propagated(at) { self.origin(at) } else { self.parent(at) };
        }
        at == node
    }

    /// "0 if authored, else D of the origin".
    fn class_depth(&self, node: usize) -> u16 {
        if self.is_authored(node) { 0 } else { self.depth_of_hierarchy(self.origin(node)) }
    }

    /// D: the stored depth of the node that a class hierarchy starts at.
    fn depth_of_hierarchy(&self, node: usize) -> u16 {
        let mut at = self.replaced(node);
        let first = self.depth_below(at);
        while matches!(self.nodes[at].arc, INHERIT | SPECIALIZE) && self.depth_below(at) == first {
            at = self.replaced(self.parent(at));
        }
        while self.nodes[at].arc == RELOCATE {
            at = self.parent(at);
        }
        self.nodes[at].depth
    }

    /// The origin of a propagated node.
    fn replaced(&self, node: usize) -> usize {
        if node > 0 && self.is_propagated(node) { self.origin(node) } else { node }
    }

    /// "The parent's prim count less the node's depth, at least 0; node 0 has 0."
    fn depth_below(&self, node: usize) -> u16 {
        if node == 0 {
            return 0;
        }
        let prims = prim_count(&self.nodes[self.parent(node)].path).unwrap_or(0);
        u16::from(prims).saturating_sub(self.nodes[node].depth)
    }
}
