//! Scripts: lines of the language, the same ones for the same seed.

mod arcs;
mod arenas;
mod culls;
mod erase_sets;
mod graphs;
mod lists;
mod orders;
mod paths;
mod snapshots;
mod strength;

pub use arcs::arcs;
pub use arenas::arenas;
pub use culls::{culls, culls_large};
pub use graphs::graphs;
pub use lists::lists;
pub use orders::{orders, orders_large, sequences, sequences_by_number};
pub use paths::paths;
pub use snapshots::snapshots;
pub use strength::{relations, strength, strength_graphs, strength_large};
