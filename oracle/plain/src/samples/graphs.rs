//! The nodes of a random graph, and the snapshot that they make.

use crate::layout::{INVALID, MAX_NODES, MAX_PATH_BYTES};
use crate::path::{self, prim_count};
use crate::random::Random;
use crate::record::{CULLED, FIXED_BYTES, INERT, ROOT};
use crate::snapshot::VERSION;

/// The fields of a record, with their widths.
#[derive(Debug, Clone, PartialEq, Eq)]
pub struct Node {
    pub arc: u8,
    pub flags: u8,
    pub stack: u32,
    pub layer: u32,
    pub parent: u32,
    pub origin: u32,
    pub depth: u16,
    pub sibling: u16,
    pub restriction: u16,
    pub spec_from: u16,
    pub has_specs: u8,
    pub path: Vec<u8>,
}

impl Node {
    /// A Reference below node 0.
    pub fn reference(path: Vec<u8>) -> Self {
        Self {
            arc: 4,
            flags: 0,
            stack: 0,
            layer: 0,
            parent: 0,
            origin: 0,
            depth: 0,
            sibling: 0,
            restriction: 0,
            spec_from: 0,
            has_specs: 1,
            path,
        }
    }

    /// Appends the record, its length first.
    fn write(&self, bytes: &mut Vec<u8>) {
        bytes.extend(((FIXED_BYTES + self.path.len()) as u16).to_be_bytes());
        bytes.extend([self.arc, self.flags]);
        for number in [self.stack, self.layer, self.parent, self.origin] {
            bytes.extend(number.to_be_bytes());
        }
        for number in [self.depth, self.sibling, self.restriction, self.spec_from] {
            bytes.extend(number.to_be_bytes());
        }
        bytes.push(self.has_specs);
        bytes.extend(&self.path);
    }
}

/// The snapshot that holds these records, whatever they say.
pub fn snapshot(nodes: &[Node]) -> Vec<u8> {
    let mut bytes = vec![0, 0, 0, 0, VERSION];
    bytes.extend((nodes.len() as u16).to_be_bytes());
    nodes.iter().for_each(|node| node.write(&mut bytes));
    set_length(&mut bytes);
    bytes
}

/// Makes the first number of a snapshot count the bytes that follow it.
pub fn set_length(bytes: &mut [u8]) {
    let length = (bytes.len() as u32).wrapping_sub(4);
    if let Some(first) = bytes.first_chunk_mut() {
        *first = length.to_be_bytes();
    }
}

/// `count` nodes that a snapshot may have. The local root is mostly node 1; some graphs have none.
pub fn nodes(random: &mut Random, count: usize) -> Vec<Node> {
    let mut nodes: Vec<Node> = Vec::with_capacity(count);
    let beyond = random.pick(&[6, 1_000, 1_000]);
    let any = random.below(count);
    let local_root = random.pick(&[0, 1, 1, 1, any]);
    for at in 0..count {
        let parent = if random.one_in(2) { random.below(at.min(3)) } else { random.below(at) };
        let mut node = fields(random);
        node.parent = parent as u32;
        node.origin = if random.one_in(2) { node.parent } else { random.below(at) as u32 };
        node.depth = nodes.get(parent).map_or(0, |parent| depth_below(random, parent, beyond));
        if at == 0 {
            make_root(&mut node);
        } else if at == local_root {
            make_local_root(&mut node);
        }
        nodes.push(node);
    }
    nodes
}

/// Mostly at most the parent's prim count; one time in `beyond` more, which makes the graph shallow.
fn depth_below(random: &mut Random, parent: &Node, beyond: usize) -> u16 {
    let deepest = u16::from(prim_count(&parent.path).unwrap_or(0));
    if random.one_in(beyond) {
        random.pick(&[deepest + 1, 300, 65_535])
    } else {
        random.between(0, deepest.into()) as u16
    }
}

fn make_root(node: &mut Node) {
    node.arc = ROOT;
    node.flags = node.flags & !CULLED | INERT;
    node.parent = INVALID;
    node.origin = INVALID;
}

fn make_local_root(node: &mut Node) {
    node.arc = ROOT;
    node.flags &= !CULLED;
    node.parent = 0;
}

/// A node of any arc but Root, with any fields.
fn fields(random: &mut Random) -> Node {
    Node {
        arc: random.between(1, 6) as u8,
        flags: random.pick(&[0, 0, 0, 1, 2, 8, 9, 252, 255]),
        stack: random.pick(&[0, 1, 2, 65_536, INVALID]),
        layer: random.pick(&[0, 1, 256, INVALID]),
        sibling: random.pick(&[0, 0, 1, 2, 65_535]),
        restriction: random.pick(&[0, 0, 1, 300]),
        spec_from: random.pick(&[0, 0, 1, 300]),
        has_specs: random.below(2) as u8,
        ..Node::reference(random_path(random))
    }
}

/// Mostly short; now and then `/`, or one that ends in an empty selection, or one of 255 bytes, which may do so too.
fn random_path(random: &mut Random) -> Vec<u8> {
    let length = random.below(40);
    match random.below(12) {
        0 => b"/".to_vec(),
        1 => [&super::path(random, length)[..], b"{vw=}"].concat(),
        2 if random.one_in(8) => [path_of, selecting_path_of][length % 2](path::MAX_BYTES),
        _ => super::path(random, length),
    }
}

/// A path of exactly `length` bytes, which is 1 to 255, and one name.
pub fn path_of(length: usize) -> Vec<u8> {
    let mut path = vec![b'n'; length];
    path[0] = b'/';
    path
}

/// The same, of 6 bytes or more: one name and an empty selection.
pub fn selecting_path_of(length: usize) -> Vec<u8> {
    [&path_of(length - 4)[..], b"{v=}"].concat()
}

/// Adds References until there are `wanted` nodes.
pub fn fill_nodes(nodes: &mut Vec<Node>, wanted: usize) {
    let count = wanted.max(nodes.len());
    nodes.resize(count, Node::reference(path_of(1)));
}

/// Adds References until the paths have `wanted` bytes.
pub fn fill_path_bytes(nodes: &mut Vec<Node>, wanted: usize) {
    let mut missing = wanted.saturating_sub(path_bytes(nodes));
    while missing > 0 {
        let length = missing.min(path::MAX_BYTES);
        nodes.push(Node::reference(path_of(length)));
        missing -= length;
    }
}

pub fn path_bytes(nodes: &[Node]) -> usize {
    nodes.iter().map(|node| node.path.len()).sum()
}

/// A graph at a limit: as many nodes as there may be, or as many bytes of paths, and `more` beyond that. It is flat, or
/// one long line, or any tree.
pub fn crowded(random: &mut Random, more: usize) -> Vec<Node> {
    const FIRST: usize = 4;
    let mut nodes = nodes(random, FIRST);
    match random.below(3) {
        0 => fill_path_bytes(&mut nodes, MAX_PATH_BYTES + more),
        1 => fill_nodes(&mut nodes, MAX_NODES + more),
        _ => fill_both(&mut nodes, more),
    }
    let shape = random.below(3);
    for (at, node) in nodes.iter_mut().enumerate().skip(FIRST) {
        let parent = [0, at - 1, random.below(at)][shape];
        (node.parent, node.origin) = (parent as u32, random.below(at) as u32);
    }
    nodes
}

/// 1,024 nodes with as many bytes of paths as there may be, and `more` bytes.
fn fill_both(nodes: &mut Vec<Node>, more: usize) {
    let missing = MAX_NODES - nodes.len();
    let bytes = (MAX_PATH_BYTES - path_bytes(nodes)) / missing;
    nodes.resize(MAX_NODES, Node::reference(path_of(bytes)));
    let short = MAX_PATH_BYTES + more - path_bytes(nodes);
    let longer = nodes.iter_mut().rev().take(short);
    longer.for_each(|node| node.path = path_of(bytes + 1));
}

/// The children of a graph that is grown node by node: for each its parent, a lower node, and a path of about 30 bytes.
/// They are the same ones each time.
pub fn grown(count: usize) -> Vec<(u32, Vec<u8>)> {
    let mut random = Random::new(count as u64);
    let child = |at| {
        let parent = if at == 1 { 0 } else { random.below(at) };
        (parent as u32, super::path(&mut random, 22))
    };
    (1..count).map(child).collect()
}
