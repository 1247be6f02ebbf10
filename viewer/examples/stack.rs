//! Prints how many bytes of the stack each function uses at most, on the shapes that are measured and on COUNT random
//! graphs, all of 1,024 nodes: `cargo run --release --example stack -- SEED COUNT`
mod common;
#[path = "../tests/common/stack.rs"]
mod stack;

use std::env;
use std::error::Error;
use std::process::ExitCode;

fn main() -> ExitCode {
    common::say(deepest())
}

fn deepest() -> Result<String, Box<dyn Error>> {
    let arguments: Vec<String> = env::args().skip(1).collect();
    let [seed, count] = &arguments[..] else { return Err("usage: stack SEED COUNT".into()) };
    let rows = stack::deepest(seed.parse()?, count.parse()?).iter().map(ToString::to_string).collect::<Vec<_>>();
    Ok(rows.join("\n"))
}
