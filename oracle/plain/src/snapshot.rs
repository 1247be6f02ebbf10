//! Reading a snapshot: document 01's check 12 over all of it, then checks 4 to 7 record by record.

use crate::layout::*;
use crate::record::{Accepted, FIXED_BYTES, Record};

pub const VERSION: u8 = 1;

/// Length, version and count.
pub const HEADER: usize = 7;

/// How many nodes the snapshot has, or the number of the first check that fails.
pub fn count(bytes: &[u8]) -> Result<usize, u8> {
    Ok(check(bytes)?.1.count)
}

/// Fills the arena with the graph that the snapshot holds, and answers how many nodes it has; or answers the number of
/// the first check that fails, and the arena is as it was. Bytes that the graph does not use keep what they had.
pub fn read(bytes: &[u8], arena: &mut [u8]) -> Result<usize, u8> {
    if arena.len() != ARENA_BYTES {
        return Err(1);
    }
    let (records, accepted) = check(bytes)?;
    put_u32(arena, COUNT, accepted.count as u32);
    arena[ORDERED..=SHALLOW].copy_from_slice(&[0, 0, accepted.shallow.into()]);
    if accepted.count > 0 {
        put_u32(arena, LOCAL_ROOT, accepted.local_root);
    }
    for (node, record) in records.enumerate() {
        put_slot(arena, node, record, accepted.prim_counts[node]);
        if node > 0 {
            append_child(arena, record.parent() as usize, node as u32);
        }
    }
    Ok(accepted.count)
}

/// Writes all of a slot but its order entry: a node that has no children yet, and no sibling after it.
fn put_slot(arena: &mut [u8], node: usize, record: Record, prim_count: u8) {
    let slot = &mut arena[slot_at(node)..][..SLOT_BYTES];
    slot[FIRST_CHILD..ORDER_ENTRY].fill(0xff);
    slot[PRIM_COUNT] = prim_count;
    let length = FIXED_BYTES + record.path.len();
    slot[RECORD_LENGTH..RECORD].copy_from_slice(&(length as u16).to_be_bytes());
    slot[RECORD..][..FIXED_BYTES].copy_from_slice(record.fields);
    slot[RECORD + FIXED_BYTES..RECORD + length].copy_from_slice(record.path);
}

fn append_child(arena: &mut [u8], parent: usize, child: u32) {
    let parent = slot_at(parent);
    match u32_at(arena, parent + LAST_CHILD) {
        INVALID => put_u32(arena, parent + FIRST_CHILD, child),
        last => put_u32(arena, slot_at(last as usize) + NEXT_SIBLING, child),
    }
    put_u32(arena, parent + LAST_CHILD, child);
}

/// Makes all checks.
fn check(bytes: &[u8]) -> Result<(Records<'_>, Accepted), u8> {
    let records = records(bytes).ok_or(12)?;
    let mut accepted = Accepted::none();
    for record in records.clone() {
        accepted.add(record)?;
    }
    Ok((records, accepted))
}

/// The records of a snapshot, if version, count and lengths are exact.
fn records(bytes: &[u8]) -> Option<Records<'_>> {
    let (header, body) = bytes.split_first_chunk::<HEADER>()?;
    let exact = u32_at(header, 0) as usize + 4 == bytes.len();
    if !exact || header[4] != VERSION {
        return None;
    }
    let mut rest = body;
    for _ in 0..u16_at(header, 5) {
        rest = split_record(rest)?.1;
    }
    rest.is_empty().then_some(Records(body))
}

/// The record that `bytes` begin with, and what follows it.
fn split_record(bytes: &[u8]) -> Option<(Record<'_>, &[u8])> {
    let (length, rest) = bytes.split_first_chunk()?;
    let (record, rest) = rest.split_at_checked(u16::from_be_bytes(*length).into())?;
    Some((Record::new(record)?, rest))
}

/// Records one behind the other, each with its length before it.
#[derive(Clone)]
struct Records<'a>(&'a [u8]);

impl<'a> Iterator for Records<'a> {
    type Item = Record<'a>;

    fn next(&mut self) -> Option<Record<'a>> {
        let (record, rest) = split_record(self.0)?;
        self.0 = rest;
        Some(record)
    }
}
