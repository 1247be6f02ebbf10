//! What the nodes of one script have in common, so that the rarer rules meet in it.

use crate::narrowing::MAX_NODES;
use crate::pcp::prim_graph::ArcType::{self, Inherit, Payload, Reference, Relocate, Specialize, Variant};
use plain::random::Random;

const NAMES: [&str; 6] = ["A", "B", "c_1", "_d", "Drive", "M"];
/// The last two are such only since document 02, W2.
const SELECTIONS: [&str; 6] = ["", "", "", "{v=x}", "{v=|}", "{w=9-}{set=}"];

pub struct Style {
    pub nodes: usize,
    /// So few stacks and paths that sites coincide.
    pub stacks: u32,
    pub paths: Vec<String>,
    /// Arcs, the more likely ones more than once.
    pub arcs: &'static [ArcType],
    /// One add in so many copies a node below the local root.
    pub copies: usize,
    /// One Specialize in so many is without HAS_SPECIALIZES, which is how child lists lose their order.
    pub unflagged: usize,
    /// One depth in so many is beyond the parent's path, which makes the graph shallow.
    pub beyond: usize,
    /// One local root in so many is left out.
    pub rootless: usize,
}

impl Style {
    pub fn any(random: &mut Random) -> Self {
        Self {
            nodes: Self::size(random),
            stacks: random.between(1, 3) as u32,
            paths: Self::paths(random),
            arcs: random.pick(&[
                &[Specialize],
                &[Specialize, Specialize, Specialize, Inherit, Reference],
                &[Specialize, Specialize, Inherit, Inherit, Relocate],
                &[Inherit, Relocate, Reference, Specialize],
                &[Inherit, Variant, Relocate, Reference, Payload, Specialize],
            ]),
            copies: random.pick(&[2, 4, 100]),
            unflagged: random.pick(&[2, 8, 1_000, 1_000]),
            beyond: random.pick(&[10, 1_000, 1_000]),
            rootless: random.pick(&[1, 20, 20, 20, 20]),
        }
    }

    /// A few paths. In one script of twenty they are so long that limits are met.
    fn paths(random: &mut Random) -> Vec<String> {
        let long = random.one_in(20);
        (0..random.between(1, 6))
            .map(|_| {
                let first = if long { "n".repeat(random.between(20, 250)) } else { random.pick(&NAMES).into() };
                let mut path = format!("/{first}{}", random.pick(&SELECTIONS));
                for _ in 0..random.below(4) {
                    path = child_of(&path, random.pick(&NAMES)) + random.pick(&SELECTIONS);
                }
                path
            })
            .collect()
    }

    fn size(random: &mut Random) -> usize {
        match random.below(200) {
            0 => MAX_NODES + 60,
            1..=5 => random.between(41, 120),
            6..=80 => random.between(1, 8),
            _ => random.between(9, 40),
        }
    }
}

/// The path of a child; `path` is not `/`.
pub fn child_of(path: &str, name: &str) -> String {
    let slash = if path.ends_with('}') { "" } else { "/" };
    format!("{path}{slash}{name}")
}
