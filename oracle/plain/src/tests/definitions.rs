//! `well_formed`, `prim_count`, `holds_graph` and `read_snapshot` as crates/model/specs defines them, line by line, and as slow
//! as that is.

const INVALID: u64 = 4_294_967_295;

#[derive(Clone, Copy, PartialEq, Eq)]
enum State {
    Start,
    Root,
    Slash,
    Name,
    SetStart,
    Set,
    Selection,
    Closed,
    Dead,
}

fn step(state: State, byte: u8) -> State {
    use State::*;
    let start = byte.is_ascii_alphabetic() || byte == b'_';
    let word = start || byte.is_ascii_digit();
    let selection = word || byte == b'-' || byte == b'|';
    match (state, byte) {
        (Start, b'/') => Root,
        (Root | Slash | Closed, _) if start => Name,
        (Name, _) if word => Name,
        (Name, b'/') => Slash,
        (Name | Closed, b'{') => SetStart,
        (SetStart, _) if start => Set,
        (Set, _) if word => Set,
        (Set, b'=') => Selection,
        (Selection, _) if selection => Selection,
        (Selection, b'}') => Closed,
        _ => Dead,
    }
}

pub fn well_formed(path: &[u8]) -> bool {
    let end = path.iter().fold(State::Start, |state, &byte| step(state, byte));
    matches!(end, State::Root | State::Name | State::Closed) && path.len() <= 255
}

pub fn prim_count(path: &[u8]) -> u64 {
    let mut state = State::Start;
    let mut names = 0;
    for &byte in path {
        let next = step(state, byte);
        names += u64::from(state != State::Name && next == State::Name);
        state = next;
    }
    names
}

/// `width` bytes from `at` on, or as many as there are.
fn field(at: usize, width: usize, bytes: &[u8]) -> u64 {
    bytes.iter().skip(at).take(width).fold(0, |value, &byte| value * 256 + u64::from(byte))
}

#[derive(Clone)]
struct Node {
    arc: u64,
    flags: u64,
    parent: u64,
    origin: u64,
    depth: u64,
    has_specs: u64,
    path: Vec<u8>,
}

fn read_record(bytes: &[u8]) -> Node {
    Node {
        arc: field(0, 1, bytes),
        flags: field(1, 1, bytes),
        parent: field(10, 4, bytes),
        origin: field(14, 4, bytes),
        depth: field(18, 2, bytes),
        has_specs: field(26, 1, bytes),
        path: bytes.iter().skip(27).copied().collect(),
    }
}

fn has_local_root(nodes: &[Node]) -> bool {
    nodes.iter().skip(1).any(|node| node.arc == 0)
}

/// The first question of 4 to 7 that `node` fails behind `before`; 0 where there is none.
fn refusal(before: &[Node], node: &Node) -> u64 {
    let size = before.len() as u64;
    let root_record = node.arc == 0 && node.flags % 2 == 1 && node.parent == INVALID && node.origin == INVALID;
    let links = if size == 0 { root_record } else { node.parent < size && node.origin < size };
    let arc = node.arc <= 6 && (node.arc != 0 || size == 0 || (node.parent == 0 && !has_local_root(before)));
    let kind = arc && !(node.arc == 0 && node.flags / 2 % 2 == 1) && node.has_specs <= 1;
    let bytes: usize = before.iter().map(|node| node.path.len()).sum();
    let capacity = size < 1_024 && bytes + node.path.len() <= 32_768;
    let questions = [(4, links), (5, well_formed(&node.path)), (6, kind), (7, capacity)];
    questions.iter().find(|(_, passes)| !passes).map_or(0, |&(number, _)| number)
}

/// The first refusal of the records, each put to those before it.
fn records_refusal(nodes: &[Node]) -> u64 {
    let refusals = (0..nodes.len()).map(|at| refusal(&nodes[..at], &nodes[at]));
    refusals.into_iter().find(|&number| number != 0).unwrap_or(0)
}

/// The count of a snapshot, or its refusal.
pub fn read_snapshot(bytes: &[u8]) -> Result<usize, u8> {
    let exact = bytes.len() >= 7 && 4 + field(0, 4, bytes) == bytes.len() as u64 && field(4, 1, bytes) == 1;
    let nodes = if exact { read_records(field(5, 2, bytes), &bytes[7..]) } else { None };
    let nodes = nodes.ok_or(12)?;
    match records_refusal(&nodes) {
        0 => Ok(nodes.len()),
        number => Err(number as u8),
    }
}

fn read_records(count: u64, bytes: &[u8]) -> Option<Vec<Node>> {
    let mut rest = bytes;
    let mut nodes = Vec::new();
    for _ in 0..count {
        let length = field(0, 2, rest) as usize;
        if rest.len() < 2 || !(28..=282).contains(&length) || 2 + length > rest.len() {
            return None;
        }
        nodes.push(read_record(&rest[2..2 + length]));
        rest = &rest[2 + length..];
    }
    rest.is_empty().then_some(nodes)
}

fn slot_at(node: u64) -> usize {
    64 + 320 * node as usize
}

/// An arena's bytes, as the definitions read them.
struct Bytes<'a>(&'a [u8]);

impl Bytes<'_> {
    fn count(&self) -> u64 {
        field(0, 4, self.0)
    }

    fn mark(&self, at: usize) -> u64 {
        field(at, 1, self.0)
    }

    fn link(&self, node: u64, at: usize) -> u64 {
        field(slot_at(node) + at, 4, self.0)
    }

    fn record_length(&self, node: u64) -> usize {
        field(slot_at(node) + 17, 2, self.0) as usize
    }

    fn node(&self, node: u64) -> Node {
        let from_record = self.0.iter().skip(slot_at(node) + 19);
        read_record(&from_record.take(self.record_length(node)).copied().collect::<Vec<u8>>())
    }

    fn children(&self, node: u64) -> Vec<u64> {
        let mut children = Vec::new();
        let mut at = self.link(node, 0);
        while at < self.count() && (children.len() as u64) < self.count() {
            children.push(at);
            at = self.link(at, 8);
        }
        children
    }

    fn list_ends(&self, parent: u64) -> bool {
        let mut at = self.link(parent, 0);
        for _ in 0..self.count() {
            if at == INVALID {
                return true;
            }
            if at >= self.count() || self.node(at).parent != parent {
                return false;
            }
            at = self.link(at, 8);
        }
        at == INVALID
    }

    fn in_list_once(&self, node: u64) -> bool {
        if node == 0 {
            return self.link(0, 8) == INVALID;
        }
        let siblings = self.children(self.node(node).parent);
        siblings.iter().filter(|&&sibling| sibling == node).count() == 1
    }

    fn in_order_once(&self, node: u64) -> bool {
        (0..self.count()).filter(|&at| self.link(at, 12) == node).count() == 1
    }

    fn shallow_marked(&self, nodes: &[Node], node: u64) -> bool {
        let Node { parent, depth, .. } = nodes[node as usize];
        let parent_count = nodes.get(parent as usize).map_or(0, |parent| prim_count(&parent.path));
        !(node > 0 && parent_count < depth) || self.mark(6) == 1
    }

    fn marks_right(&self) -> bool {
        let [ordered, finalized, shallow] = [4, 5, 6].map(|at| self.mark(at));
        let finalized_right = finalized == 0 || (ordered == 1 && shallow == 0);
        ordered <= 1 && finalized <= 1 && shallow <= 1 && finalized_right
    }

    fn node_right(&self, nodes: &[Node], node: u64) -> bool {
        let last = self.children(node).last().copied().unwrap_or(INVALID);
        (28..=282).contains(&self.record_length(node))
            && field(slot_at(node) + 16, 1, self.0) == prim_count(&nodes[node as usize].path)
            && self.list_ends(node)
            && self.link(node, 4) == last
            && self.in_list_once(node)
            && self.shallow_marked(nodes, node)
            && (self.mark(4) == 0 || self.in_order_once(node))
    }
}

fn local_root(nodes: &[Node]) -> u64 {
    nodes.iter().skip(1).rposition(|node| node.arc == 0).map_or(0, |at| at as u64 + 1)
}

pub fn holds_graph(arena: &[u8]) -> bool {
    let bytes = Bytes(arena);
    if bytes.count() > 1_024 {
        return false;
    }
    let nodes: Vec<Node> = (0..bytes.count()).map(|node| bytes.node(node)).collect();
    bytes.marks_right()
        && (0..bytes.count()).all(|node| bytes.node_right(&nodes, node))
        && records_refusal(&nodes) == 0
        && (bytes.count() == 0 || field(8, 4, arena) == local_root(&nodes))
}
