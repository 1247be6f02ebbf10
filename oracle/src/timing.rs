//! How long the Rust takes to grow a graph, to compare nodes, to order them, to cull and to erase: what the proved
//! calls are measured beside.

use std::cmp::Ordering;
use std::hint::black_box;
use std::time::{Duration, Instant};

use plain::clock;
use plain::samples::culls::CULLED_SHAPES;
use plain::samples::graphs::{Node, grown, snapshot};
use plain::samples::ordered::ORDERED_SHAPES;
use plain::samples::strength::{MEASURED_PAIRS, SHAPES, random_pairs, sibling_pairs};

use crate::calls::graph_of;
use crate::narrowing;
use crate::pcp::LayerId;
use crate::pcp::layer_stack::LayerStackId;
use crate::pcp::mapping::MapFunction;
use crate::pcp::prim_graph::{ArcType, NodeDesc, NodeId, PrimIndexGraph};
use crate::sdf::Path;

/// Turns of which the fastest counts.
const TURNS: usize = 200;

/// Nanoseconds for `init_root` and an `add_child` for each further node, up to `count` nodes: the least of many turns.
/// The descriptions of the nodes are made before the clock starts.
pub fn adding(count: usize) -> u128 {
    let children: Vec<(NodeId, NodeDesc)> = grown(count).iter().map(|(parent, path)| child(*parent, path)).collect();
    (0..TURNS).map(|_| turn(children.clone())).min().unwrap_or(0)
}

fn turn(children: Vec<(NodeId, NodeDesc)>) -> u128 {
    let path = well_formed(b"/World");
    let start = Instant::now();
    let mut graph = PrimIndexGraph::default();
    graph.init_root(LayerStackId(0), LayerId(0), path);
    for (parent, desc) in children {
        graph.add_child(parent, desc);
    }
    let elapsed = start.elapsed();
    black_box(graph);
    elapsed.as_nanos()
}

/// A Reference with this path; its other fields are 0 and its depth is missing.
fn child(parent: u32, path: &[u8]) -> (NodeId, NodeDesc) {
    let path = well_formed(path);
    let desc = NodeDesc::new(LayerStackId(0), LayerId(0), path, ArcType::Reference, MapFunction::identity());
    (NodeId(parent), desc)
}

fn well_formed(path: &[u8]) -> Path {
    Path::parse(path).unwrap_or(Path::abs_root())
}

/// For comparing, turns go on for so long, and there is at least one.
const COMPARING: Duration = Duration::from_millis(200);

type Compare = fn(&PrimIndexGraph, NodeId, NodeId) -> Ordering;

/// The time for comparing all siblings of a graph of this shape, and that for the random pairs; no such shape gives
/// nothing.
pub fn comparing(shape: &str, count: usize) -> Option<[Compared; 2]> {
    let (_, nodes) = SHAPES.iter().find(|(name, _)| *name == shape)?;
    let nodes: Vec<Node> = nodes(count);
    let judge = graph_of(&snapshot(&nodes)).ok()?;
    let time = |compare: Compare, pairs: Vec<(u32, u32)>| time_pairs(judge.graph(), compare, &pairs);
    Some([
        time(PrimIndexGraph::compare_sibling_node_strength, sibling_pairs(&nodes, MEASURED_PAIRS)),
        time(PrimIndexGraph::compare_node_strength, random_pairs(&nodes, MEASURED_PAIRS)),
    ])
}

/// Nanoseconds for all pairs, the least of many turns, and the sum of the answers: Less 0, Equal 1, Greater 2.
pub struct Compared {
    pub nanoseconds: u128,
    pub sum: u64,
}

fn time_pairs(graph: &PrimIndexGraph, compare: Compare, pairs: &[(u32, u32)]) -> Compared {
    let mut compared = Compared { nanoseconds: u128::MAX, sum: 0 };
    let begun = Instant::now();
    while compared.nanoseconds == u128::MAX || begun.elapsed() < COMPARING {
        let start = Instant::now();
        compared.sum = pairs.iter().map(|&(a, b)| number(compare(graph, NodeId(a), NodeId(b)))).sum();
        compared.nanoseconds = compared.nanoseconds.min(start.elapsed().as_nanos());
    }
    compared
}

fn number(ordering: Ordering) -> u64 {
    match ordering {
        Ordering::Less => 0,
        Ordering::Equal => 1,
        Ordering::Greater => 2,
    }
}

/// A graph of one shape, to be ordered again and again.
pub struct OrderTimer {
    snapshot: Vec<u8>,
}

impl OrderTimer {
    /// No such shape, or a graph without an order, gives nothing.
    pub fn new(shape: &str, count: usize) -> Option<Self> {
        let (_, nodes) = ORDERED_SHAPES.iter().find(|(name, _)| *name == shape)?;
        let snapshot = snapshot(&nodes(count));
        narrowing::order(graph_of(&snapshot).ok()?.graph(), false).ok()?;
        Some(Self { snapshot })
    }

    /// The least time of the turns of a while, less the clock's own. Each turn has a graph of its own, made before the
    /// clock starts, since the Rust copies what two graphs share.
    pub fn turns(&self) -> Option<Ordered> {
        let mut ordered = Ordered { nanoseconds: u64::MAX, sum: 0 };
        let mut clock = u64::MAX;
        let begun = Instant::now();
        while ordered.nanoseconds == u64::MAX || begun.elapsed() < ORDERING {
            let mut judge = graph_of(&self.snapshot).ok()?;
            ordered.nanoseconds = ordered.nanoseconds.min(clock::nanoseconds(|| judge.finalize_strength_order()));
            clock = clock.min(clock::nanoseconds(|| ()));
            ordered.sum = order_sum(black_box(judge.graph()));
        }
        ordered.nanoseconds -= clock.min(ordered.nanoseconds);
        Some(ordered)
    }
}

/// For ordering, turns go on for so long, the making of their graphs included; others take their turns between.
const ORDERING: Duration = Duration::from_millis(40);

/// What ordering took, and the sum of each place times its node's number, which tells one order from another.
pub struct Ordered {
    pub nanoseconds: u64,
    pub sum: u64,
}

fn order_sum(graph: &PrimIndexGraph) -> u64 {
    (0..).zip(graph.strength_order()).map(|(place, node): (u64, &NodeId)| place * u64::from(node.0)).sum()
}

/// The times for culling a graph of this shape, for its erasable set and for erasing that, the least of many turns, and
/// how many nodes are kept; no such shape gives nothing. Each turn has a graph of its own, made before the clock
/// starts.
pub fn culling(shape: &str, count: usize) -> Option<Culled> {
    let (_, nodes) = CULLED_SHAPES.iter().find(|(name, _)| *name == shape)?;
    let snapshot = snapshot(&nodes(count));
    let mut culled = Culled { nanoseconds: [u128::MAX; 3], kept: 0 };
    let begun = Instant::now();
    while culled.kept == 0 || begun.elapsed() < CULLING {
        let mut judge = graph_of(&snapshot).ok()?;
        let mut set = Vec::new();
        let turns =
            [time(|| judge.cull()), time(|| set = judge.graph().erasable()), time(|| culled.kept = judge.erase(&set))];
        culled.nanoseconds = [0, 1, 2].map(|at| culled.nanoseconds[at].min(turns[at]));
        black_box(judge);
    }
    Some(culled)
}

/// For culling, turns go on for so long, the making of their graphs included.
const CULLING: Duration = Duration::from_millis(400);

/// What culling, the erasable set and erasing took, and the nodes that are kept.
pub struct Culled {
    pub nanoseconds: [u128; 3],
    pub kept: usize,
}

fn time(run: impl FnOnce()) -> u128 {
    let start = Instant::now();
    run();
    start.elapsed().as_nanos()
}
