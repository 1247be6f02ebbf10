//! The stack that each public call uses at most.
use plain::culling::SET_BYTES;
use plain::layout::{ARENA_BYTES, SNAPSHOT_BYTES};
use plain::path::MAX_BYTES;
use plain::samples::deepest::pairs;
use plain::samples::graphs::{Node, path_of, snapshot};
use plain::stack::{Call, STATED_BYTES, deepest};

use crate::proved;

/// Prints the most that each of [`CALLS`] uses, on the shapes and on so many random graphs, as rows of a Markdown table.
/// Answers whether none uses more than is stated.
pub fn measure(seed: u64, count: usize) -> bool {
    let most = deepest(&CALLS, Graph::new, seed, count as u64);
    most.iter().for_each(|most| println!("{most}"));
    let beyond = most.iter().filter(|most| most.bytes > STATED_BYTES).count();
    println!("{} calls: {beyond} use more than {STATED_BYTES} bytes of the stack", most.len());
    beyond == 0
}

/// A graph, in arenas on which every call is accepted, but for ordering where there is no order.
struct Graph {
    nodes: Vec<Node>,
    pairs: Vec<(u32, u32)>,
    snapshot: Vec<u8>,
    arena: Vec<u8>,
    /// Without its last node.
    fewer: Vec<u8>,
    /// With paths of two bytes.
    short: Vec<u8>,
    culled: Vec<u8>,
    set: Vec<u8>,
}

impl Graph {
    fn new(nodes: &[Node]) -> Self {
        let short: Vec<Node> = nodes.iter().map(|node| Node { path: b"/A".into(), ..node.clone() }).collect();
        let arena = arena_of(nodes);
        let (mut culled, mut set) = (arena.clone(), vec![0; SET_BYTES]);
        assert_eq!(proved::cull(&mut culled), Ok(0));
        assert_eq!(proved::erasable(&culled, &mut set), Ok(0));
        Self {
            nodes: nodes.to_vec(),
            pairs: pairs(nodes),
            snapshot: snapshot(nodes),
            arena,
            fewer: arena_of(&nodes[..nodes.len() - 1]),
            short: arena_of(&short),
            culled,
            set,
        }
    }

    /// Calls on some nodes.
    fn each(&self, call: fn(&[u8], u32) -> Result<u32, u32>) {
        self.pairs.iter().for_each(|&(node, _)| accepted(call(&self.arena, node)));
    }

    /// Calls on some pairs of nodes.
    fn each_pair(&self, call: fn(&[u8], u32, u32) -> Result<u32, u32>) {
        self.pairs.iter().for_each(|&(a, b)| accepted(call(&self.arena, a, b)));
    }

    fn last(&self) -> &Node {
        self.nodes.last().expect("a node")
    }
}

fn arena_of(nodes: &[Node]) -> Vec<u8> {
    let mut arena = vec![0; ARENA_BYTES];
    assert_eq!(plain::snapshot::read(&snapshot(nodes), &mut arena), Ok(nodes.len()));
    arena
}

/// A call that is refused may not go deep.
fn accepted(answer: Result<u32, u32>) {
    assert!(answer.is_ok(), "refused: {answer:?}");
}

/// The public calls that `crates/bench_api` has, each with what is called of it on a graph.
const CALLS: [Call<Graph>; 28] = [
    ("init_root", |_| accepted(proved::init_root(&mut vec![0; ARENA_BYTES], 0, 0, &path_of(MAX_BYTES)))),
    ("add_child", |graph| {
        accepted(proved::add_child(&mut graph.fewer.clone(), graph.last().parent, &graph.last().path));
    }),
    ("read_snapshot", |graph| accepted(proved::read_snapshot(&mut vec![0; ARENA_BYTES], &graph.snapshot))),
    ("write_snapshot", |graph| accepted(proved::write_snapshot(&graph.arena, &mut vec![0; SNAPSHOT_BYTES]))),
    // refused 9 where there is a cycle, which takes it deepest
    ("finalize_strength_order", |graph| {
        assert!(matches!(proved::finalize_strength_order(&mut graph.arena.clone()), Ok(0) | Err(9)));
    }),
    ("cull_subtrees_without_opinions", |graph| accepted(proved::cull(&mut graph.arena.clone()))),
    ("erasable", |graph| accepted(proved::erasable(&graph.culled, &mut vec![0; SET_BYTES]))),
    ("erase", |graph| accepted(proved::erase(&mut graph.culled.clone(), &graph.set))),
    ("append_child_name_to_all_sites", |graph| {
        accepted(proved::append_child_name_to_all_sites(&mut graph.short.clone(), b"/A/Line"));
    }),
    ("seed_child", |graph| accepted(proved::seed_child(&graph.short, &mut vec![0; ARENA_BYTES], b"/A/Line"))),
    ("compare_node_strength", |graph| graph.each_pair(proved::compare_node_strength)),
    ("is_ancestor_of", |graph| graph.each_pair(proved::is_ancestor_of)),
    ("same_site", |graph| graph.each_pair(proved::same_site)),
    ("is_propagated_specializes", |graph| graph.each(proved::is_propagated_specializes)),
    ("get_propagated_specializes_node", |graph| graph.each(proved::get_propagated_specializes_node)),
    ("starting_node_of_class_hierarchy", |graph| graph.each(proved::starting_node_of_class_hierarchy)),
    ("graph_info", |graph| accepted(proved::graph_info(&graph.arena))),
    ("node", |graph| graph.each(proved::node)),
    ("path", |graph| graph.each(proved::path)),
    ("depth_below_introduction", |graph| graph.each(proved::depth_below_introduction)),
    ("path_at_introduction", |graph| graph.each(proved::path_at_introduction)),
    ("intro_path", |graph| graph.each(proved::intro_path)),
    ("is_due_to_ancestor", |graph| graph.each(proved::is_due_to_ancestor)),
    ("mark", |graph| accepted(proved::mark(&mut graph.arena.clone(), 0, 5))),
    ("set_first_spec", |graph| accepted(proved::set_first_spec(&mut graph.arena.clone(), 0, 1))),
    ("set_has_specs", |graph| accepted(proved::set_has_specs(&mut graph.arena.clone(), 0, true))),
    ("set_restriction_depth", |graph| accepted(proved::set_restriction_depth(&mut graph.arena.clone(), 0, 1))),
    ("node_using_site", |graph| {
        accepted(proved::node_using_site(&graph.arena, graph.last().stack, &graph.last().path));
    }),
];
