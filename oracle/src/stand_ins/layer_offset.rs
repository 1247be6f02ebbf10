//! Stands for `LayerOffset` of `sdf`: a field of a type that no call here makes.

#[derive(Debug, Clone, Copy)]
pub struct LayerOffset;
