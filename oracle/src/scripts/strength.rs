//! Lines that compare nodes. A graph is read from a snapshot; then some pairs are compared, now and then refused ones,
//! and of a small graph every pair.

use std::io::{self, Write};

use plain::random::Random;
use plain::samples::graphs::{Node, snapshot};
use plain::samples::strength::{large, small};

use crate::calls::hex;

/// `compare` lines on each large graph.
const LARGE_PAIRS: usize = 2_000;

/// Graphs of up to 20 nodes; every pair of each is compared at its end.
pub fn strength(seed: u64, count: usize, out: &mut dyn Write) -> io::Result<()> {
    let mut random = Random::new(!seed);
    for nodes in strength_graphs(seed, count) {
        if random.one_in(50) {
            writeln!(out, "new\n{} 0 0\ncompares", random.pick(&["compare", "sibling"]))?;
        }
        read(&nodes, out)?;
        for _ in 0..2 {
            pair(&mut random, "compare", nodes.len(), out)?;
            pair(&mut random, "sibling", nodes.len(), out)?;
        }
        some_siblings(&mut random, &nodes, out)?;
        writeln!(out, "compares")?;
    }
    Ok(())
}

/// Graphs of 200 to 1,024 nodes with long chains of origins; 2,000 pairs of each are compared, and some as siblings.
pub fn strength_large(seed: u64, count: usize, out: &mut dyn Write) -> io::Result<()> {
    let mut random = Random::new(seed);
    for _ in 0..count {
        let nodes = large(&mut random);
        read(&nodes, out)?;
        for _ in 0..LARGE_PAIRS {
            writeln!(out, "compare {} {}", random.below(nodes.len()), random.below(nodes.len()))?;
        }
        for _ in 0..LARGE_PAIRS / 100 {
            pair(&mut random, "sibling", nodes.len(), out)?;
        }
    }
    Ok(())
}

/// What the comparison asks of nodes: each of the lines on one node for every node of a small graph, and some on two.
pub fn relations(seed: u64, count: usize, out: &mut dyn Write) -> io::Result<()> {
    const OF_ONE: [&str; 3] = ["propagated", "copy", "class"];
    let mut random = Random::new(!seed);
    for nodes in strength_graphs(seed, count) {
        if random.one_in(50) {
            writeln!(out, "new\n{} 0", random.pick(&OF_ONE))?;
            pair(&mut random, "site", 1, out)?;
        }
        read(&nodes, out)?;
        for node in 0..=nodes.len() {
            OF_ONE.iter().try_for_each(|word| writeln!(out, "{word} {node}"))?;
        }
        for _ in 0..8 {
            pair(&mut random, "ancestor", nodes.len(), out)?;
            pair(&mut random, "site", nodes.len(), out)?;
        }
    }
    Ok(())
}

/// The graphs of [`strength`] with the same seed.
pub fn strength_graphs(seed: u64, count: usize) -> impl Iterator<Item = Vec<Node>> {
    let mut random = Random::new(seed);
    (0..count).map(move |_| small(&mut random))
}

fn read(nodes: &[Node], out: &mut dyn Write) -> io::Result<()> {
    writeln!(out, "read {}", hex(&snapshot(nodes)))
}

/// A line on two nodes: now and then on one node twice, on node 0, or on a number that is no node's.
fn pair(random: &mut Random, word: &str, count: usize, out: &mut dyn Write) -> io::Result<()> {
    let (mut a, mut b) = (random.below(count), random.below(count));
    match random.below(40) {
        0 => a = random.pick(&[count, count + 1, 1_024, 65_536, 4_294_967_295]),
        1 => b = random.pick(&[count, count + 1, 1_024, 65_536, 4_294_967_295]),
        2 => a = b,
        3 => b = 0,
        _ => (),
    }
    writeln!(out, "{word} {a} {b}")
}

/// A line on two nodes with one parent.
fn some_siblings(random: &mut Random, nodes: &[Node], out: &mut dyn Write) -> io::Result<()> {
    let a = random.below(nodes.len());
    let siblings: Vec<usize> = (0..nodes.len()).filter(|&b| nodes[b].parent == nodes[a].parent).collect();
    writeln!(out, "sibling {a} {}", random.pick(&siblings))
}
