//! Stands for `LayerId` of `layer_graph.rs`: a 32-bit number (document 01). The graph keeps it and gives it back.

#[derive(Debug, Clone, Copy, PartialEq, Eq, PartialOrd, Ord)]
pub struct LayerId(pub u32);
