//! The Rust's module `pcp`, of which only `prim_graph.rs` is the real thing. Everything that file imports from its
//! neighbours is a stand-in.

pub use crate::stand_ins::layer_id::LayerId;

pub mod layer_stack {
    pub use crate::stand_ins::layer_stack_id::LayerStackId;
}

pub mod mapping {
    pub use crate::stand_ins::map_function::MapFunction;
}

include!(concat!(env!("OUT_DIR"), "/prim_graph_item.rs"));
