//! Stands for `MapFunction` of `mapping.rs`, which document 01 leaves out: nodes carry no map, so it does nothing.

#[derive(Debug, Clone)]
pub struct MapFunction;

impl MapFunction {
    pub fn identity() -> Self {
        Self
    }

    pub fn compose(&self, _inner: &Self) -> Self {
        Self
    }
}
