//! Snapshots that are not as they were written.

use std::iter;

use crate::narrowing::{MAX_NODES, MAX_PATH_BYTES};
use crate::pcp::prim_graph::ArcType;
use crate::record::Record;
use plain::random::Random;

/// Changes one field of one record; about half of the changes are legal.
pub fn change_record(random: &mut Random, records: &mut [Record]) {
    let at = random.below(records.len());
    let Some(record) = records.get_mut(at) else { return };
    let lower = random.below(at + 1) as u32;
    match random.below(12) {
        0 | 1 => record.flags ^= 2,
        2 => record.flags ^= 1 << random.below(8),
        3 => record.arc = random.below(8) as u8,
        4 => record.parent = Some(lower),
        5 => record.origin = Some(lower),
        6 => record.origin = None,
        7 => record.depth = Some(random.pick(&[0, 1, 2, 5, 65_535])),
        8 => record.has_specs = random.below(3) as u8,
        9 => record.path = random.pick(&["/", "/A", "/A/B{v=-}", "/A{vw=}/B", "//"]).as_bytes(),
        10 => record.sibling = random.below(3) as u16,
        _ => record.spec_from = random.below(9) as u16,
    }
}

/// Adds records until there are as many as a graph may have, one fewer, or one more.
pub fn fill_nodes(random: &mut Random, records: &mut Vec<Record>) {
    let wanted = random.between(MAX_NODES - 1, MAX_NODES + 1);
    let missing = wanted.saturating_sub(records.len());
    records.extend(iter::repeat_n(reference_to(b"/"), missing));
}

/// Adds records until the paths have as many bytes as they may, or one more.
pub fn fill_path_bytes<'a>(random: &mut Random, records: &mut Vec<Record<'a>>, path: &'a [u8]) {
    let held: usize = records.iter().map(|record| record.path.len()).sum();
    let wanted = MAX_PATH_BYTES + random.below(2);
    let mut missing = wanted.saturating_sub(held);
    while missing > 0 {
        let length = missing.min(path.len());
        records.push(reference_to(&path[..length]));
        missing -= length;
    }
}

fn reference_to(path: &[u8]) -> Record<'_> {
    Record {
        arc: ArcType::Reference as u8,
        flags: 0,
        stack: 0,
        layer: 0,
        parent: Some(0),
        origin: Some(0),
        depth: Some(0),
        sibling: 0,
        restriction: 0,
        spec_from: 0,
        has_specs: 1,
        path,
    }
}

/// Changes one byte, or takes bytes away or adds one.
pub fn change_bytes(random: &mut Random, bytes: &mut Vec<u8>) {
    let at = random.below(bytes.len());
    match random.below(5) {
        0 => bytes.truncate(at.max(1)),
        1 => bytes.push(0),
        _ => bytes[at] = random.byte(),
    }
}
