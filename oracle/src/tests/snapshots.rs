//! The oracle's reading of snapshots against the plain one, which is written apart from it.

use std::io::Cursor;

use plain::layout::{ARENA_BYTES, FIRST_CHILD, INVALID, NEXT_SIBLING, SHALLOW, slot_at, u32_at};
use plain::random::Random;
use plain::samples::damaged_snapshots::damaged;
use plain::samples::graphs::{crowded, nodes, snapshot};

use super::answers;
use crate::calls::hex;
use crate::stream;

/// What the oracle answers to `read` and then to `chains` and `marks`.
fn read_by_oracle(bytes: &[u8]) -> [String; 3] {
    let [read, chains, marks] = &answers(&format!("read {}\nchains\nmarks", hex(bytes)))[..] else {
        panic!("three lines, three answers");
    };
    [read, chains, marks].map(String::from)
}

/// The same, by the plain reader and its arena.
fn read_plainly(bytes: &[u8], arena: &mut [u8]) -> [String; 3] {
    match plain::snapshot::read(bytes, arena) {
        Ok(count) => [count.to_string(), chains(arena, count), format!("0 0 {}", arena[SHALLOW])],
        Err(number) => [format!("refused {number}"), String::new(), "0 0 0".into()],
    }
}

fn chains(arena: &[u8], count: usize) -> String {
    let lists = (0..count).map(|node| children(arena, node).join(","));
    lists.collect::<Vec<_>>().join(";")
}

fn children(arena: &[u8], node: usize) -> Vec<String> {
    let mut children = Vec::new();
    let mut child = u32_at(arena, slot_at(node) + FIRST_CHILD);
    while child != INVALID {
        children.push(child.to_string());
        child = u32_at(arena, slot_at(child as usize) + NEXT_SIBLING);
    }
    children
}

#[test]
fn the_plain_reader_agrees() {
    let mut random = Random::new(11);
    let mut arena: Vec<u8> = (0..ARENA_BYTES).map(|_| random.byte()).collect();
    for _ in 0..10_000 {
        let size = random.below(12);
        let nodes = nodes(&mut random, size);
        for bytes in [snapshot(&nodes), damaged(&mut random, &nodes)] {
            assert_eq!(read_plainly(&bytes, &mut arena), read_by_oracle(&bytes), "{}", hex(&bytes));
        }
    }
}

#[test]
fn the_plain_reader_agrees_at_the_limits() {
    let mut random = Random::new(12);
    let mut arena = vec![0; ARENA_BYTES];
    for at in 0..20 {
        let bytes = snapshot(&crowded(&mut random, at % 2));
        assert!(read_plainly(&bytes, &mut arena) == read_by_oracle(&bytes));
    }
}

/// Every snapshot of the script is answered as the plain reader answers it.
#[test]
fn the_plain_reader_agrees_on_the_script() {
    let mut script = Vec::new();
    crate::scripts::snapshots(13, 5_000, &mut script).expect("memory takes every byte");
    let mut answered = Vec::new();
    stream::answer_all(&mut Cursor::new(&script), &mut answered, false).expect("memory takes every byte");
    let (script, answered) = (String::from_utf8_lossy(&script), String::from_utf8_lossy(&answered));
    for (line, answer) in script.lines().zip(answered.lines()) {
        let Some(digits) = line.strip_prefix("read ") else { continue };
        let count = plain::snapshot::count(&bytes_of(digits));
        assert_eq!(count.map_or_else(|number| format!("refused {number}"), |count| count.to_string()), answer);
    }
}

fn bytes_of(digits: &str) -> Vec<u8> {
    let pairs = digits.as_bytes().chunks(2).map(|pair| str::from_utf8(pair).expect("digits"));
    pairs.map(|pair| u8::from_str_radix(pair, 16).expect("digits")).collect()
}
