//! What document 01 checks before a call (its twelve questions), where the Rust takes its arguments on trust. Every
//! refusal but 12 comes from here, and nothing else does; it is written from document 01 alone.
//!
//! A function makes the checks of its call in document 01's order and hands back what has then become an argument that
//! the Rust can take. Check 1 cannot fail: the lines lend no buffers. Check 12 is in `snapshot.rs`.

use std::cmp::Ordering;

use crate::flags::{self, CULLED, INERT, PROHIBITED_CHILDREN};
use crate::judge::Judge;
use crate::line::Setting;
use crate::pcp::LayerId;
use crate::pcp::layer_stack::LayerStackId;
use crate::pcp::mapping::MapFunction;
use crate::pcp::prim_graph::{ArcType, NodeDesc, NodeId, PrimIndexGraph};
use crate::record::Record;
use crate::refusal::Refusal;
use crate::sdf::Path;

pub const MAX_NODES: usize = 1_024;
pub const MAX_PATH_BYTES: usize = 32_768;

const NO_GRAPH: Refusal = Refusal::new(2, "the bytes hold no graph; the Rust always has one");
const NO_NODE_0: Refusal = Refusal::new(3, "the graph is empty; the Rust returns, or is never asked");
const STARTED: Refusal = Refusal::new(3, "there is a node 0 already; the Rust only asserts that there is none");
const NODE_TOO_HIGH: Refusal = Refusal::new(4, "no node has this number; the Rust would stop at its array");
const NOT_LOWER: Refusal = Refusal::new(4, "a record's parent and origin must be nodes before it");
const WRONG_RECORD_0: Refusal = Refusal::new(4, "record 0 must have arc Root, INERT, no parent and no origin");
const MALFORMED: Refusal = Refusal::new(5, "the path is malformed; the Rust's path type cannot hold it");
const NO_NAME: Refusal = Refusal::new(5, "the path does not end in a name; the Rust would then do nothing");
const UNKNOWN_ARC: Refusal = Refusal::new(6, "arcs go from 0 to 6; the Rust's type has no other");
const MISPLACED_ROOT: Refusal = Refusal::new(6, "arc Root is for one child of node 0; the Rust takes any number");
const CULLED_ADDED: Refusal = Refusal::new(6, "CULLED may not be added; the Rust takes it");
const ARC_FLAG_MARKED: Refusal = Refusal::new(6, "only flags 1, 2 and 4 may be marked; the Rust asserts it");
const CULLED_ROOT: Refusal = Refusal::new(6, "CULLED may not stand on arc Root; the Rust takes it");
const NOT_YES_OR_NO: Refusal = Refusal::new(6, "has-specs must be 0 or 1; the Rust's type has no other");
const TOO_MANY_NODES: Refusal = Refusal::new(7, "a graph has at most 1,024 nodes; the Rust has no limit");
const TOO_MANY_BYTES: Refusal = Refusal::new(7, "the paths have at most 32,768 bytes; the Rust has no limit");
const PATH_TOO_LONG: Refusal = Refusal::new(7, "a path has at most 255 bytes; the Rust then keeps the old path");
const NOT_SIBLINGS: Refusal = Refusal::new(8, "siblings have one parent; the Rust compares any two nodes");
const NO_ORDER: Refusal = Refusal::new(9, "a child list has no order; the Rust's sort promises nothing there");
const NOT_ORDERED: Refusal = Refusal::new(10, "the order is not current; the Rust would hand out the old one");
const NEITHER_GOES_NOR_STAYS: Refusal = Refusal::new(11, "a byte is 0 or 1; the Rust's type has no other");
const ROOT_GOES: Refusal = Refusal::new(11, "a Root arc would go; the Rust erases it");
const LINK_GOES: Refusal = Refusal::new(11, "a kept node's parent or origin would go; the Rust only asserts it stays");

/// Check 2: there is a graph.
pub fn is_graph(judge: &Judge) -> Result<(), Refusal> {
    NO_GRAPH.unless(judge.is_graph())
}

/// Check 3: there is a node 0.
pub fn node_0(graph: &PrimIndexGraph) -> Result<(), Refusal> {
    NO_NODE_0.unless(!graph.is_empty())
}

/// Check 3 for starting: there is none.
pub fn no_node_0(graph: &PrimIndexGraph) -> Result<(), Refusal> {
    STARTED.unless(graph.is_empty())
}

/// Checks 3 and 4: the node with this number.
pub fn node(graph: &PrimIndexGraph, number: u32) -> Result<NodeId, Refusal> {
    node_0(graph)?;
    node_below_count(graph, number).ok_or(NODE_TOO_HIGH)
}

fn node_below_count(graph: &PrimIndexGraph, number: u32) -> Option<NodeId> {
    let id = NodeId(number);
    (id.idx() < graph.len()).then_some(id)
}

/// Check 5: the path that `bytes` write.
pub fn path(bytes: &[u8]) -> Result<Path, Refusal> {
    Path::parse(bytes).ok_or(MALFORMED)
}

/// Check 5 where a child is named: the path must end in a name.
pub fn child_path(bytes: &[u8]) -> Result<Path, Refusal> {
    let path = path(bytes)?;
    NO_NAME.unless(path.name().is_some())?;
    Ok(path)
}

/// Check 7 for one path: `path` with the last name of `child` appended.
pub fn append(path: &Path, child: &Path) -> Result<Path, Refusal> {
    let name = child.name().ok_or(NO_NAME)?;
    path.append_path(name).map_err(|_| PATH_TOO_LONG)
}

/// `add_child`, checks 3 to 7: the parent, invalid where it is missing, and the node to add.
pub fn add(graph: &PrimIndexGraph, record: &Record) -> Result<(NodeId, NodeDesc), Refusal> {
    node_0(graph)?;
    let parent = match record.parent {
        Some(number) => node(graph, number)?,
        None => NodeId::INVALID,
    };
    let origin = record.origin.map(|number| node(graph, number)).transpose()?;
    let path = path(record.path)?;
    CULLED_ADDED.unless(record.flags & CULLED == 0)?;
    let desc = describe(graph, parent.valid().unwrap_or(graph.root()), origin, path, record)?;
    capacity(graph, &desc.path)?;
    Ok((parent, desc))
}

/// Record 0 of a snapshot, checks 4 to 7: the node it describes.
pub fn record_0(record: &Record) -> Result<NodeDesc, Refusal> {
    let arc_and_flags = record.arc == ArcType::Root as u8 && record.flags & INERT != 0;
    WRONG_RECORD_0.unless(arc_and_flags && record.parent.is_none() && record.origin.is_none())?;
    let path = path(record.path)?;
    CULLED_ROOT.unless(record.flags & CULLED == 0)?;
    fill(ArcType::Root, None, path, record)
}

/// A later record of a snapshot, checks 4 to 7, where `graph` holds the records before it: its parent and the node.
pub fn later_record(graph: &PrimIndexGraph, record: &Record) -> Result<(NodeId, NodeDesc), Refusal> {
    let lower = |link: Option<u32>| link.and_then(|number| node_below_count(graph, number)).ok_or(NOT_LOWER);
    let parent = lower(record.parent)?;
    let origin = lower(record.origin)?;
    let path = path(record.path)?;
    let desc = describe(graph, parent, Some(origin), path, record)?;
    CULLED_ROOT.unless(desc.arc != ArcType::Root || record.flags & CULLED == 0)?;
    capacity(graph, &desc.path)?;
    Ok((parent, desc))
}

/// Check 6, except for CULLED: the node that `record` describes under `parent`.
fn describe(
    graph: &PrimIndexGraph,
    parent: NodeId,
    origin: Option<NodeId>,
    path: Path,
    record: &Record,
) -> Result<NodeDesc, Refusal> {
    let arc = arc(record.arc).ok_or(UNKNOWN_ARC)?;
    let first_below_node_0 = parent == graph.root() && !graph.local_root().is_valid();
    MISPLACED_ROOT.unless(arc != ArcType::Root || first_below_node_0)?;
    fill(arc, origin, path, record)
}

/// The end of check 6, has-specs: the Rust's description of a node.
fn fill(arc: ArcType, origin: Option<NodeId>, path: Path, record: &Record) -> Result<NodeDesc, Refusal> {
    NOT_YES_OR_NO.unless(record.has_specs <= 1)?;
    Ok(NodeDesc {
        layer_stack: LayerStackId(record.stack),
        representative: LayerId(record.layer),
        path,
        arc,
        map_to_parent: MapFunction::identity(),
        origin,
        namespace_depth: record.depth,
        sibling_num_at_origin: record.sibling,
        has_specs: record.has_specs == 1,
        spec_from: record.spec_from,
        restriction_depth: record.restriction,
        flags: flags::from_byte(record.flags),
    })
}

fn arc(number: u8) -> Option<ArcType> {
    use ArcType::*;
    let arcs = [Root, Inherit, Variant, Relocate, Reference, Payload, Specialize];
    arcs.get(usize::from(number)).copied()
}

/// Check 7 for one node more, with this path.
fn capacity(graph: &PrimIndexGraph, path: &Path) -> Result<(), Refusal> {
    TOO_MANY_NODES.unless(graph.len() < MAX_NODES)?;
    let held: usize = graph.nodes().map(|node| node.path().as_str().len()).sum();
    TOO_MANY_BYTES.unless(held + path.as_str().len() <= MAX_PATH_BYTES)
}

/// Deepening and seeding, checks 3, 5 and 7: the child's path.
pub fn deepen(graph: &PrimIndexGraph, child: &[u8]) -> Result<Path, Refusal> {
    node_0(graph)?;
    let child = child_path(child)?;
    let mut bytes = 0;
    for node in graph.nodes() {
        bytes += append(node.path(), &child)?.as_str().len();
    }
    TOO_MANY_BYTES.unless(bytes <= MAX_PATH_BYTES)?;
    Ok(child)
}

/// The setters, checks 3, 4 and, for flags to be marked, 6: the node.
pub fn set(graph: &PrimIndexGraph, number: u32, setting: &Setting) -> Result<NodeId, Refusal> {
    let id = node(graph, number)?;
    if let &Setting::Mark(byte) = setting {
        ARC_FLAG_MARKED.unless(byte & !(INERT | CULLED | PROHIBITED_CHILDREN) == 0)?;
        CULLED_ROOT.unless(byte & CULLED == 0 || graph.node(id).arc() != ArcType::Root)?;
    }
    Ok(id)
}

/// Sibling comparison, checks 3, 4 and 8: the two nodes.
pub fn siblings(graph: &PrimIndexGraph, a: u32, b: u32) -> Result<(NodeId, NodeId), Refusal> {
    let (a, b) = (node(graph, a)?, node(graph, b)?);
    NOT_SIBLINGS.unless(a == b || graph.node(a).parent() == graph.node(b).parent())?;
    Ok((a, b))
}

/// Ordering, checks 3 and 9. A finalized graph is not asked for an order: the Rust returns at once.
pub fn order(graph: &PrimIndexGraph, finalized: bool) -> Result<(), Refusal> {
    node_0(graph)?;
    NO_ORDER.unless(finalized || graph.nodes().all(|node| has_order(graph, node.children())))
}

/// Whether some order of `children` has each earlier one stronger than each later one.
///
/// Of two children one is always the stronger, so there is such an order exactly if insertion finds it.
fn has_order(graph: &PrimIndexGraph, children: impl Iterator<Item = NodeId>) -> bool {
    let stronger = |a, b| graph.compare_sibling_node_strength(a, b) == Ordering::Less;
    let mut sorted: Vec<NodeId> = Vec::new();
    for child in children {
        let at = sorted.iter().position(|&other| stronger(child, other));
        sorted.insert(at.unwrap_or(sorted.len()), child);
    }
    let mut earlier = sorted.iter().enumerate();
    earlier.all(|(at, &a)| sorted[at + 1..].iter().all(|&b| stronger(a, b)))
}

/// Reading the order, checks 3 and 10.
pub fn list(graph: &PrimIndexGraph, ordered: bool) -> Result<(), Refusal> {
    node_0(graph)?;
    NOT_ORDERED.unless(ordered)
}

/// Erasing, checks 3 and 11: for each node whether it goes. Nodes that `set` does not reach stay; what it has past the
/// count is not read.
pub fn erase(graph: &PrimIndexGraph, set: &[u8]) -> Result<Vec<bool>, Refusal> {
    node_0(graph)?;
    let mut set = set.to_vec();
    set.resize(graph.len(), 0);
    NEITHER_GOES_NOR_STAYS.unless(set.iter().all(|&byte| byte <= 1))?;
    let goes: Vec<bool> = set.iter().map(|&byte| byte == 1).collect();
    for node in graph.nodes() {
        if goes[node.id().idx()] {
            ROOT_GOES.unless(node.arc() != ArcType::Root)?;
        } else {
            let stays = |link: Option<NodeId>| link.is_none_or(|id| !goes[id.idx()]);
            LINK_GOES.unless(stays(node.parent()) && stays(node.origin()))?;
        }
    }
    Ok(goes)
}
