//! The judge beside the proved program: it answers the lines of the command `calls` by the Rust's `PrimIndexGraph`, and
//! writes scripts of such lines. Both programs are given the same script, and `diff` compares what they print.

// `prim_graph.rs` says `use bitflags::bitflags`, which then finds the macro of this crate.
extern crate self as bitflags;

mod calls;
mod deciding;
mod flags;
mod judge;
mod line;
mod narrowing;
mod pcp;
mod record;
mod refusal;
mod scripts;
mod sdf;
mod selections;
mod snapshot;
mod stand_ins;
mod stream;
#[cfg(test)]
mod tests;
mod timing;

use std::env;
use std::io::{self, BufWriter, Write};
use std::process::ExitCode;

const USAGE: &str = "\
usage: oracle answer                                 answer the lines on standard input
       oracle script paths SEED                      print lines on paths
       oracle script graphs SEED COUNT               print lines on COUNT random graphs
       oracle script arenas SEED COUNT               print COUNT scripts that make graphs and look at them
       oracle script snapshots SEED COUNT            print lines that read COUNT damaged snapshots
       oracle script strength SEED COUNT             print lines that compare every pair of COUNT small graphs
       oracle script strength-large SEED COUNT       print lines that compare 2,000 pairs of COUNT large graphs
       oracle script arcs                            print lines that compare siblings of each pair of arcs
       oracle script relations SEED COUNT            print lines that ask about nodes of COUNT small graphs
       oracle script orders SEED COUNT               print lines that order COUNT small graphs
       oracle script orders-large SEED COUNT         print lines that order COUNT larger graphs and some of 1,024 nodes
       oracle script sequences SEED COUNT            print lines that make and order COUNT graphs in two sequences
       oracle script sequences-by-number SEED COUNT  print the same where node numbers decide
       oracle script culls SEED COUNT                print lines that cull COUNT small graphs and erase from them
       oracle script culls-large SEED COUNT          print the same on COUNT larger graphs and some of 1,024 nodes
       oracle script lists SEED COUNT                print COUNT lists of calls that write, the graph shown after each
       oracle selections WORD...                     count the parts that begin with a WORD, and those with wider selections
       oracle deciding SEED COUNT                    print how many pairs of `script strength` each line settles
       oracle time-adding COUNT                      print the nanoseconds that the Rust takes to add COUNT nodes
       oracle time-comparing SHAPE COUNT             print those for comparing its siblings and 10,000 pairs
       oracle time-ordering SHAPE COUNT              print those for ordering such a graph, for each line of input
       oracle time-culling SHAPE COUNT               print those for culling it, for its erasable set and for erasing";

type Script = fn(u64, usize, &mut dyn Write) -> io::Result<()>;

fn main() -> ExitCode {
    let arguments: Vec<String> = env::args().skip(1).collect();
    let words: Vec<&str> = arguments.iter().map(String::as_str).collect();
    let printed = match words[..] {
        ["answer"] => Some(print(|out| stream::answer_all(&mut io::stdin().lock(), out, explained()))),
        ["script", "paths", seed] => seed.parse().ok().map(|seed| print(|out| scripts::paths(seed, out))),
        ["script", "arcs"] => Some(print(|out| scripts::arcs(out))),
        ["script", "graphs", seed, count] => print_script(scripts::graphs, seed, count),
        ["script", "arenas", seed, count] => print_script(scripts::arenas, seed, count),
        ["script", "snapshots", seed, count] => print_script(scripts::snapshots, seed, count),
        ["script", "strength", seed, count] => print_script(scripts::strength, seed, count),
        ["script", "strength-large", seed, count] => print_script(scripts::strength_large, seed, count),
        ["script", "relations", seed, count] => print_script(scripts::relations, seed, count),
        ["script", "orders", seed, count] => print_script(scripts::orders, seed, count),
        ["script", "orders-large", seed, count] => print_script(scripts::orders_large, seed, count),
        ["script", "sequences", seed, count] => print_script(scripts::sequences, seed, count),
        ["script", "sequences-by-number", seed, count] => print_script(scripts::sequences_by_number, seed, count),
        ["script", "culls", seed, count] => print_script(scripts::culls, seed, count),
        ["script", "culls-large", seed, count] => print_script(scripts::culls_large, seed, count),
        ["script", "lists", seed, count] => print_script(scripts::lists, seed, count),
        ["selections", ref words @ ..] if !words.is_empty() => Some(print_selections(words)),
        ["deciding", seed, count] => print_script(deciding::print, seed, count),
        ["time-adding", count] => {
            count.parse().ok().map(|count| print(|out| writeln!(out, "{}", timing::adding(count))))
        }
        ["time-comparing", shape, count] => print_comparing(shape, count),
        ["time-ordering", shape, count] => print_ordering(shape, count),
        ["time-culling", shape, count] => print_culling(shape, count),
        _ => None,
    };
    match printed {
        Some(Ok(())) => ExitCode::SUCCESS,
        Some(Err(_)) => ExitCode::FAILURE,
        None => usage(),
    }
}

/// Prints a script, if the words are numbers.
fn print_script(script: Script, seed: &str, count: &str) -> Option<io::Result<()>> {
    let (seed, count) = (seed.parse().ok()?, count.parse().ok()?);
    Some(print(|out| script(seed, count, out)))
}

/// Prints how many parts the lines of standard input have, and how many of them a path with a wider selection.
fn print_selections(words: &[&str]) -> io::Result<()> {
    let [parts, wider] = selections::count(words, &mut io::stdin().lock())?;
    print(|out| writeln!(out, "{parts} {wider}"))
}

/// Prints the nanoseconds and the sum of answers of both comparisons, if there is such a shape.
fn print_comparing(shape: &str, count: &str) -> Option<io::Result<()>> {
    let [siblings, nodes] = timing::comparing(shape, count.parse().ok()?)?;
    let (first, second) = (siblings.nanoseconds, nodes.nanoseconds);
    Some(print(|out| writeln!(out, "{first} {} {second} {}", siblings.sum, nodes.sum)))
}

/// For each line of standard input, at once, the nanoseconds for ordering and the sum of the order, if there is such a
/// shape.
fn print_ordering(shape: &str, count: &str) -> Option<io::Result<()>> {
    let timer = timing::OrderTimer::new(shape, count.parse().ok()?)?;
    Some(print(|out| {
        for line in io::stdin().lines() {
            line?;
            let Some(ordered) = timer.turns() else { break };
            writeln!(out, "{} {}", ordered.nanoseconds, ordered.sum)?;
            out.flush()?;
        }
        Ok(())
    }))
}

/// Prints the nanoseconds for culling, for the erasable set and for erasing, and how many nodes are kept, if there is
/// such a shape.
fn print_culling(shape: &str, count: &str) -> Option<io::Result<()>> {
    let culled = timing::culling(shape, count.parse().ok()?)?;
    let [culling, erasable, erasing] = culled.nanoseconds;
    Some(print(|out| writeln!(out, "{culling} {erasable} {erasing} {}", culled.kept)))
}

fn usage() -> ExitCode {
    eprintln!("{USAGE}");
    ExitCode::from(2)
}

/// Whether refusals are to be explained.
fn explained() -> bool {
    env::var_os("ORACLE_EXPLAIN").is_some_and(|value| value == "1")
}

fn print(write: impl FnOnce(&mut dyn Write) -> io::Result<()>) -> io::Result<()> {
    let mut out = BufWriter::new(io::stdout().lock());
    write(&mut out)?;
    out.flush()
}
