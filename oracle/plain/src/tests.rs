//! The plain code against the definitions, word by word, on whole and damaged samples.

mod arenas;
mod clock;
mod culls;
mod definitions;
mod orders;
mod paths;
mod snapshots;
mod stack;
mod strength;
