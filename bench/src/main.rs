//! Holds the proved library to plain Rust, and measures it beside that, on the same input in one run.
mod arenas;
mod before;
mod culling;
mod erasures;
mod graphs;
mod order;
mod orders;
mod paths;
mod proved;
mod slowest;
mod snapshots;
mod stack;
mod strength;
mod time;
mod turns;

use std::env;
use std::process::ExitCode;

const USAGE: &str = "\
usage: bench [paths]                  measure reading paths
       bench graphs                   measure the check of an arena, snapshots and adding
       bench strength                 measure comparing nodes
       bench order                    measure ordering graphs, without question 2 and with it
       bench culling                  measure culling, the erasable set and erasing
       bench before OTHER [SHAPE]     measure reading, comparing and ordering beside OTHER, this program with another library
       bench turns WHAT SHAPE COUNT   measure one size for a while for each line of input: what OTHER is asked
       bench arenas SEED COUNT        compare the check on COUNT damaged arenas, and on whole ones
       bench snapshots SEED COUNT     compare the reading of COUNT snapshots, whole and damaged
       bench orders SEED SMALL LARGE  compare the ordering of so many small graphs, and of so many large ones
       bench slowest SEED COUNT       order COUNT graphs of 1,024 nodes, and find the slowest
       bench erasures SEED COUNT      compare culling and erasing in COUNT arenas
       bench stack SEED COUNT         measure the stack of each call, on the shapes and on COUNT random graphs";

fn main() -> ExitCode {
    let arguments: Vec<String> = env::args().skip(1).collect();
    let words: Vec<&str> = arguments.iter().map(String::as_str).collect();
    let agreed = match words[..] {
        [] | ["paths"] => Some(paths::measure()),
        ["graphs"] => Some(graphs::measure()),
        ["strength"] => Some(strength::measure()),
        ["order"] => Some(order::measure()),
        ["culling"] => Some(culling::measure()),
        ["before", other] => before::measure(other, None),
        ["before", other, shape] => before::measure(other, Some(shape)),
        ["turns", what, shape, count] => before::serve(what, shape, count),
        ["arenas", seed, count] => on_numbers(seed, count, arenas::compare),
        ["snapshots", seed, count] => on_numbers(seed, count, snapshots::compare),
        ["orders", seed, small, large] => compare_orders(seed, small, large),
        ["slowest", seed, count] => on_numbers(seed, count, slowest::search),
        ["erasures", seed, count] => on_numbers(seed, count, erasures::compare),
        ["stack", seed, count] => on_numbers(seed, count, stack::measure),
        _ => None,
    };
    match agreed {
        Some(true) => ExitCode::SUCCESS,
        Some(false) => ExitCode::FAILURE,
        None => {
            eprintln!("{USAGE}");
            ExitCode::from(2)
        }
    }
}

/// What a command on a seed and a count answers; nothing where the words are no numbers.
fn on_numbers(seed: &str, count: &str, run: fn(u64, usize) -> bool) -> Option<bool> {
    Some(run(seed.parse().ok()?, count.parse().ok()?))
}

/// The same of ordering, which takes two counts.
fn compare_orders(seed: &str, small: &str, large: &str) -> Option<bool> {
    Some(orders::compare(seed.parse().ok()?, small.parse().ok()?, large.parse().ok()?))
}
