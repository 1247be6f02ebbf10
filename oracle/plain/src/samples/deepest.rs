//! Graphs that may take a call deep into the stack, all of 1,024 nodes.

use super::culls::CULLED_SHAPES;
use super::graphs::Node;
use super::ordered::{CYCLES, ORDERED_SHAPES};
use super::strength::{SHAPES, random_pairs};
use super::twisted::largest;
use crate::layout::MAX_NODES;
use crate::random::Random;

/// The nodes of a graph, and its name.
pub type Named = (String, Vec<Node>);

/// Every shape.
pub fn shapes() -> impl Iterator<Item = Named> {
    let ordered = ORDERED_SHAPES.iter().chain(&CYCLES).map(|(name, shape)| (name.to_string(), shape));
    let compared = SHAPES.iter().map(|(name, shape)| (format!("{name} as compared"), shape));
    let culled = CULLED_SHAPES.iter().map(|(name, shape)| (format!("{name} as culled"), shape));
    ordered.chain(compared).chain(culled).map(|(name, shape)| (name, shape(MAX_NODES)))
}

/// Random graphs, each of a seed of its own, from this one on.
pub fn of_seeds(seed: u64, count: u64) -> impl Iterator<Item = Named> {
    let seeds = (0..count).map(move |at| seed.wrapping_add(at));
    seeds.map(|seed| (format!("seed {seed}"), largest(&mut Random::new(seed))))
}

/// Pairs of nodes to call on: of the highest numbers, which have the longest ways up, all; and some others.
pub fn pairs(nodes: &[Node]) -> Vec<(u32, u32)> {
    let last = (nodes.len() as u32).saturating_sub(8)..nodes.len() as u32;
    let mut pairs: Vec<(u32, u32)> = last.clone().flat_map(|a| last.clone().map(move |b| (a, b))).collect();
    pairs.extend(random_pairs(nodes, 32));
    pairs
}
