//! The Rust's module `sdf`, as far as `prim_graph.rs` imports it.

pub use crate::stand_ins::layer_offset::LayerOffset;
pub use crate::stand_ins::path::Path;
