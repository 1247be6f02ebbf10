//! The examples of document 01, the wider selections of document 02, the edges of the language, inputs that mean
//! nothing, the plain reader of snapshots, the plain comparison, ordering, culling and erasing; the scripts.

mod culls;
mod deepening;
mod departures;
mod erasing;
mod examples;
mod lines;
mod lists;
mod orders;
mod paths;
mod robustness;
mod saving;
mod selections;
mod setting;
mod snapshots;
mod strength;

use crate::Script;
use crate::calls::Calls;

/// The answers to the lines of `script`.
fn answers(script: &str) -> Vec<String> {
    let mut calls = Calls::default();
    script.split('\n').map(|line| calls.answer(line.as_bytes()).text()).collect()
}

/// The lines of a generated script.
fn printed(script: Script, seed: u64, count: usize) -> String {
    let mut out = Vec::new();
    script(seed, count, &mut out).expect("memory takes every byte");
    String::from_utf8(out).expect("text")
}

/// Runs `script`, in which each line is followed by ` => ` and the answer it must get.
fn check(script: &str) {
    let mut calls = Calls::default();
    for line in script.lines().map(str::trim_start).filter(|line| !line.is_empty()) {
        let (line, expected) = line.split_once(" => ").expect("a line and its answer");
        assert_eq!(calls.answer(line.as_bytes()).text(), expected, "{line}");
    }
}
