//! Stands for `LayerStackId` of `layer_stack.rs`: a 32-bit number (document 01), the first half of a site.

#[derive(Debug, Clone, Copy, PartialEq, Eq)]
pub struct LayerStackId(pub u32);
