//! Calls on graphs: the check of an arena, reading and writing a snapshot, adding node by node.
use std::hint::black_box;
use std::path::Path;
use std::process::Command;

use plain::arena::holds_graph;
use plain::layout::{ARENA_BYTES, INVALID, LOCAL_ROOT, SNAPSHOT_BYTES};
use plain::order;
use plain::path::prim_count;
use plain::samples::graphs::{Node, grown, path_of, snapshot};

use crate::{proved, time, turns};

const SIZES: [usize; 4] = [16, 64, 256, 1_024];

/// The path of node 0.
const ROOT_PATH: &[u8] = b"/World";

pub fn measure() -> bool {
    println!("nanoseconds for each node; paths of some 30 bytes\n");
    println!("checking an arena: nodes, plain Rust, proved, proved / plain");
    SIZES.iter().for_each(|&size| check(&Graph::new(size)));
    println!("\nchecking an arena that is ordered: nodes, plain Rust, proved, proved / plain");
    SIZES.iter().for_each(|&size| check(&Graph::new(size).ordered()));
    println!("\nreading a snapshot: nodes, copying the bytes, plain Rust, proved, proved / plain");
    SIZES.iter().for_each(|&size| read(&Graph::new(size)));
    println!("\nwriting a snapshot: nodes, copying the bytes, proved, proved / copying");
    SIZES.iter().for_each(|&size| write(&Graph::new(size)));
    println!("\nadding node by node: nodes, the Rust, proved, proved / the Rust");
    SIZES.iter().for_each(|&size| add(&Graph::new(size)));
    true
}

/// One graph, as it is needed: its children with their parents and paths, its snapshot and an arena that holds it.
pub struct Graph {
    size: usize,
    children: Vec<(u32, Vec<u8>)>,
    snapshot: Vec<u8>,
    arena: Vec<u8>,
}

impl Graph {
    fn new(size: usize) -> Self {
        Self::of_paths(size, |_| true)
    }

    /// With a path of one name, as long, in place of each that is not taken.
    pub fn of_paths(size: usize, taken: impl Fn(&[u8]) -> bool) -> Self {
        let path = |path: Vec<u8>| if taken(&path) { path } else { path_of(path.len()) };
        let children: Vec<_> = grown(size).into_iter().map(|(parent, old)| (parent, path(old))).collect();
        let snapshot = snapshot(&nodes(&children));
        let mut arena = vec![0; ARENA_BYTES];
        assert_eq!(plain::snapshot::read(&snapshot, &mut arena), Ok(size));
        assert_eq!(proved::is_graph(&arena), 1, "what is refused takes no time");
        Self { size, children, snapshot, arena }
    }

    /// The same graph, ordered.
    fn ordered(mut self) -> Self {
        let lists = order::sorted(&nodes(&self.children)).expect("each child list has an order");
        order::write(&lists, &mut self.arena);
        self
    }

    /// Nanoseconds for each node, of two ways to do a thing.
    fn time(&self, one: impl FnMut(), other: impl FnMut()) -> (f64, f64) {
        let (one, other) = time::least(200, 8_192 / self.size, one, other);
        (one / self.size as f64, other / self.size as f64)
    }

    /// Nanoseconds for each node, the least of the turns of a while: the check of the arena, or reading the snapshot
    /// into it, and nothing beside it.
    pub fn turns(&mut self, check: bool) -> (f64, f64) {
        let runs = 8_192 / self.size;
        let Self { snapshot, arena, .. } = self;
        let mut run = || match check {
            true => _ = black_box(proved::is_graph(black_box(arena))),
            false => _ = black_box(proved::read_snapshot(arena, black_box(snapshot))),
        };
        (time::least_within(turns::LONG, || (0..runs).for_each(|_| run())) / (runs * self.size) as f64, 0.0)
    }

    /// Copies the snapshot.
    fn copy(&self, out: &mut [u8]) {
        black_box(&mut out[..self.snapshot.len()]).copy_from_slice(black_box(&self.snapshot));
    }
}

/// Node 0 and the children, as References that have the depth of their parents' paths.
fn nodes(children: &[(u32, Vec<u8>)]) -> Vec<Node> {
    let root = Node { arc: 0, flags: 1, parent: INVALID, origin: INVALID, ..Node::reference(ROOT_PATH.into()) };
    let mut nodes = vec![root];
    for (parent, path) in children {
        let depth = prim_count(&nodes[*parent as usize].path).unwrap_or(0).into();
        nodes.push(Node { parent: *parent, origin: *parent, depth, ..Node::reference(path.clone()) });
    }
    nodes
}

fn check(graph: &Graph) {
    assert!(holds_graph(&graph.arena));
    let (plain, ours) = graph.time(
        || _ = black_box(holds_graph(black_box(&graph.arena))),
        || _ = black_box(proved::is_graph(black_box(&graph.arena))),
    );
    println!("{:5} {plain:9.1} {ours:9.1} {:9.2}", graph.size, ours / plain);
}

fn read(graph: &Graph) {
    let (mut plain_arena, mut arena) = (vec![0; ARENA_BYTES], vec![0; ARENA_BYTES]);
    let mut out = vec![0; SNAPSHOT_BYTES];
    assert_eq!(proved::read_snapshot(&mut arena, &graph.snapshot), Ok(graph.size as u32));
    assert!(arena == graph.arena, "the proved reader and the plain one fill an arena alike");
    let (copying, _) = graph.time(|| graph.copy(&mut out), || ());
    let (plain, ours) = graph.time(
        || _ = black_box(plain::snapshot::read(black_box(&graph.snapshot), &mut plain_arena)),
        || _ = black_box(proved::read_snapshot(&mut arena, black_box(&graph.snapshot))),
    );
    println!("{:5} {copying:9.1} {plain:9.1} {ours:9.1} {:9.2}", graph.size, ours / plain);
}

fn write(graph: &Graph) {
    let (mut copied, mut out) = (vec![0; SNAPSHOT_BYTES], vec![0; SNAPSHOT_BYTES]);
    assert_eq!(proved::write_snapshot(&graph.arena, &mut out), Ok(graph.snapshot.len() as u32));
    assert!(out.starts_with(&graph.snapshot), "the snapshot is written as it was read");
    let (copying, ours) = graph
        .time(|| graph.copy(&mut copied), || _ = black_box(proved::write_snapshot(black_box(&graph.arena), &mut out)));
    println!("{:5} {copying:9.1} {ours:9.1} {:9.2}", graph.size, ours / copying);
}

fn add(graph: &Graph) {
    let mut arena = vec![0; ARENA_BYTES];
    grow(&mut arena, graph);
    assert!(holds_graph(&arena) && arena[..4] == graph.arena[..4], "the nodes have been added");
    let (ours, _) = time::least(20, 1, || grow(&mut arena, graph), || ());
    let ours = ours / graph.size as f64;
    match time_of_the_rust(graph.size) {
        Some(rust) => println!("{:5} {rust:9.1} {ours:9.1} {:9.2}", graph.size, ours / rust),
        None => println!("{:5} {:>9} {ours:9.1} {:>9} (build oracle/ for the Rust's time)", graph.size, "-", "-"),
    }
}

/// Empties the arena and adds all nodes.
fn grow(arena: &mut [u8], graph: &Graph) {
    arena[..LOCAL_ROOT].fill(0);
    assert_eq!(proved::init_root(arena, 0, 0, ROOT_PATH), Ok(0));
    for (number, (parent, path)) in (1..).zip(&graph.children) {
        assert_eq!(proved::add_child(arena, *parent, path), Ok(number));
    }
}

/// What `oracle time-adding` measures, for each node.
fn time_of_the_rust(size: usize) -> Option<f64> {
    let oracle = Path::new(env!("CARGO_MANIFEST_DIR")).join("../oracle/target/release/oracle");
    let printed = Command::new(oracle).args(["time-adding", &size.to_string()]).output().ok()?;
    let nanoseconds: f64 = String::from_utf8(printed.stdout).ok()?.trim().parse().ok()?;
    Some(nanoseconds / size as f64)
}
