//! Loads a snapshot from a file and compares two of its nodes:
//! `cargo run --example compare -- examples/ring.snapshot 3 4`
mod common;

use std::cmp::Ordering;
use std::error::Error;
use std::process::ExitCode;
use std::{env, fs};

fn main() -> ExitCode {
    common::say(compare())
}

fn compare() -> Result<String, Box<dyn Error>> {
    let arguments: Vec<String> = env::args().skip(1).collect();
    let [file, a, b] = &arguments[..] else { return Err("usage: compare SNAPSHOT NODE NODE".into()) };
    let mut arena = viewer::empty_arena();
    let count = viewer::read_snapshot(&mut arena, &fs::read(file)?)?;
    let said = match viewer::compare_node_strength(&arena, a.parse()?, b.parse()?)? {
        Ordering::Less => format!("{a} is stronger than {b}"),
        Ordering::Equal => format!("{a} and {b} are one node"),
        Ordering::Greater => format!("{b} is stronger than {a}"),
    };
    Ok(format!("of {count} nodes {said}"))
}
