//! How many graphs of a script have a path that is one only since document 02, W2: with a selection that is empty, or
//! has `-` or `|`.

use std::io::{self, BufRead};

use crate::line::{self, Call};
use crate::sdf::Path;
use crate::{snapshot, stream};

/// How many parts the lines have, and how many of these give some node such a path. A part begins at each line whose
/// first word is one of `words`; that of an empty line is empty.
pub fn count(words: &[&str], input: &mut dyn BufRead) -> io::Result<[usize; 2]> {
    let (mut parts, mut wider) = (0, 0);
    let mut looking = false;
    let mut line = Vec::new();
    while stream::next_line(input, &mut line)? {
        let first = line.split(|&byte| byte == b' ').next().unwrap_or(&line);
        if words.iter().any(|word| word.as_bytes() == first) {
            parts += 1;
            looking = true;
        }
        if looking && gives_wider_path(&line) {
            wider += 1;
            looking = false;
        }
    }
    Ok([parts, wider])
}

/// Whether the line starts a graph, adds a node or reads nodes with such a path.
fn gives_wider_path(line: &[u8]) -> bool {
    match line::parse(line) {
        Some(Call::Init(_, _, path)) => is_wider(path),
        Some(Call::Add(record)) => is_wider(record.path),
        Some(Call::Read(bytes)) => {
            snapshot::decode(&bytes).is_ok_and(|records| records.iter().any(|record| is_wider(record.path)))
        }
        _ => false,
    }
}

/// Nowhere but in a selection does a path have `-` or `|`.
fn is_wider(path: &[u8]) -> bool {
    Path::parse(path).is_some_and(|path| path.as_str().contains("=}") || path.as_str().contains(['-', '|']))
}
