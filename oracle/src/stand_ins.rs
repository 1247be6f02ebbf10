//! What stands in for the files that `prim_graph.rs` imports and that are not supplied, or not part of the port.

mod bitflags;
pub mod layer_id;
pub mod layer_offset;
pub mod layer_stack_id;
pub mod map_function;
pub mod path;
mod root_fields;
