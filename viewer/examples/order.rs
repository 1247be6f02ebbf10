//! Loads a snapshot from a file and prints its nodes, the strongest first:
//! `cargo run --example order -- ../examples/line.snapshot`
mod common;

use std::error::Error;
use std::process::ExitCode;
use std::{env, fs};

fn main() -> ExitCode {
    common::say(order())
}

fn order() -> Result<String, Box<dyn Error>> {
    let arguments: Vec<String> = env::args().skip(1).collect();
    let [file] = &arguments[..] else {
        return Err("usage: order SNAPSHOT".into());
    };
    let mut arena = viewer::empty_arena();
    viewer::read_snapshot(&mut arena, &fs::read(file)?)?;
    viewer::finalize_strength_order(&mut arena)?;
    let nodes: Vec<String> = viewer::strength_order(&arena)?.iter().map(u32::to_string).collect();
    Ok(nodes.join(" "))
}
