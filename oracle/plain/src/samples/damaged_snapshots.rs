//! Snapshots that are not as they were written. Some of the changes leave them acceptable.

use super::graphs::{self, Node, path_of, selecting_path_of, set_length};
use crate::layout::INVALID;
use crate::path;
use crate::random::Random;
use crate::record::{FIXED_BYTES, ROOT};
use crate::snapshot::HEADER;

/// A damaged snapshot of `nodes`, never the whole one.
pub fn damaged(random: &mut Random, nodes: &[Node]) -> Vec<u8> {
    let whole = graphs::snapshot(nodes);
    loop {
        let bytes = changed(random, nodes.to_vec());
        if bytes != whole {
            return bytes;
        }
    }
}

/// Fields are changed before they are written, or bytes afterwards, or both. A change may put what was there before.
fn changed(random: &mut Random, mut nodes: Vec<Node>) -> Vec<u8> {
    let way = random.below(8);
    if way < 6 {
        for _ in 0..random.pick(&[1, 1, 1, 2, 3]) {
            change_field(random, &mut nodes);
        }
    }
    let mut bytes = graphs::snapshot(&nodes);
    if way > 4 {
        change_bytes(random, &mut bytes);
        if random.one_in(2) {
            set_length(&mut bytes);
        }
    }
    bytes
}

/// Changes one field of one record.
fn change_field(random: &mut Random, nodes: &mut [Node]) {
    let at = random.below(nodes.len());
    let above = nodes.len() as u32;
    let Some(node) = nodes.get_mut(at) else { return };
    let lower = random.below(at) as u32;
    let not_lower = random.pick(&[at as u32, at as u32 + 1, above, 65_536, INVALID - 1, INVALID]);
    match random.below(16) {
        0 => node.parent = not_lower,
        1 => node.origin = not_lower,
        2 => node.parent = lower,
        3 => node.origin = lower,
        4 => node.arc = random.pick(&[1, 6, 7, 8, 255]),
        5 => node.flags ^= 1 << random.below(8),
        6 => node.flags ^= random.pick(&[1, 2, 3]),
        7 => node.has_specs = random.pick(&[0, 1, 2, 255]),
        8 => node.path = path_of(random.between(1, path::MAX_BYTES)),
        9 => node.path = random.pick(&OTHER_PATHS).into(),
        10 => node.path = [path_of, selecting_path_of][at % 2](random.pick(&[path::MAX_BYTES, path::MAX_BYTES + 1])),
        11 => change_letter(random, &mut node.path),
        12 | 13 => node.arc = ROOT,
        14 => node.depth = random.pick(&[0, 1, 2, 5, 65_535]),
        _ => (node.stack, node.sibling) = (random.below(1 << 32) as u32, random.below(1 << 16) as u16),
    }
}

/// Paths, most of them malformed.
const OTHER_PATHS: [&str; 24] = [
    "", "A", "//", "/A{v=x}/B", "/A{v=x}1", "/A{v=x}B", "/A/", "/1", // document 01's rules
    "", "-", "/-", "/A{v=.,~}", "/A{v=x}-", "/A{v=|}B", "/A-", "/|", // as document 02, W2, widens them
    "", "|", "/|", "/A{v-w=x}", "/A{v=+}B", "/A{v=-}B", "/A|", "/-",
];

/// Puts a byte of those that paths have, or any other, into a path.
pub fn change_letter(random: &mut Random, path: &mut [u8]) {
    let at = random.below(path.len());
    let byte = if random.one_in(8) { random.byte() } else { random.pick(b"/{}=_aZ09/{}=_aZ-|") };
    if let Some(letter) = path.get_mut(at) {
        *letter = byte;
    }
}

/// Changes bytes of a snapshot, without regard to its records.
fn change_bytes(random: &mut Random, bytes: &mut Vec<u8>) {
    let at = random.below(bytes.len());
    let off_by_one = random.pick(&[1, u8::MAX]);
    match random.below(9) {
        0 => bytes.truncate(at.max(1)),
        1 => bytes.insert(at, random.byte()),
        2 => double(random, bytes, at),
        3 => bytes[3] = bytes[3].wrapping_add(off_by_one),
        4 => bytes[4] = random.pick(&[0, 2, 255]),
        5 => bytes[6] = bytes[6].wrapping_add(off_by_one),
        6 => change_length(random, bytes),
        7 => bytes.push(random.byte()),
        _ => bytes[at] = random.byte(),
    }
}

/// Says some bytes twice.
fn double(random: &mut Random, bytes: &mut Vec<u8>, at: usize) {
    let end = random.between(at, bytes.len().min(at + 40));
    let again = bytes[at..end].to_vec();
    bytes.splice(end..end, again);
}

/// Changes the length of one record: by one, to one outside the limits, or to the first or last within them.
fn change_length(random: &mut Random, bytes: &mut [u8]) {
    let mut starts = Vec::new();
    let mut at = HEADER;
    while let Some(&[high, low]) = bytes.get(at..at + 2).and_then(<[u8]>::first_chunk) {
        starts.push(at);
        at += 2 + usize::from(u16::from_be_bytes([high, low]));
    }
    if starts.is_empty() {
        return;
    }
    let start = random.pick(&starts);
    let length = usize::from(u16::from_be_bytes([bytes[start], bytes[start + 1]]));
    let (least, most) = (FIXED_BYTES + 1, FIXED_BYTES + path::MAX_BYTES);
    let changed = random.pick(&[length + 1, length - 1, least, most, least - 1, most + 1, 0]);
    bytes[start..start + 2].copy_from_slice(&(changed as u16).to_be_bytes());
}
