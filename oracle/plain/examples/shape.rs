//! Prints the snapshot of a shape to be ordered: `shape NAME NODES`; without words the names, one to a line.
use std::env;
use std::io::{self, Write};
use std::process::ExitCode;

use plain::samples::graphs::snapshot;
use plain::samples::ordered::{CYCLES, ORDERED_SHAPES};

fn main() -> ExitCode {
    let arguments: Vec<String> = env::args().skip(1).collect();
    match print(&arguments) {
        Some(Ok(())) => ExitCode::SUCCESS,
        Some(Err(_)) => ExitCode::FAILURE,
        None => {
            eprintln!("usage: shape [NAME NODES]");
            ExitCode::from(2)
        }
    }
}

/// Nothing where there is no such shape.
fn print(arguments: &[String]) -> Option<io::Result<()>> {
    let mut shapes = ORDERED_SHAPES.iter().chain(&CYCLES);
    let [name, count] = arguments else {
        shapes.for_each(|(name, _)| println!("{name}"));
        return arguments.is_empty().then_some(Ok(()));
    };
    let (_, shape) = shapes.find(|(other, _)| other == name)?;
    Some(io::stdout().write_all(&snapshot(&shape(count.parse().ok()?))))
}
