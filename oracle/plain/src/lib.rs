//! Plain Rust for a part of what the proved program does, written by hand from document 01 and docs/LAYOUT.md alone: a
//! judge that shares nothing with the proved code, and the yardstick for its speed. [`samples`] makes the graphs that
//! both are tried on, whole and damaged.

pub mod arena;
pub mod clock;
pub mod culling;
pub mod erasing;
pub mod graph;
pub mod layout;
pub mod order;
pub mod path;
pub mod random;
pub mod record;
pub mod samples;
pub mod snapshot;
pub mod stack;
pub mod strength;
#[cfg(test)]
mod tests;
