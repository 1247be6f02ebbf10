//! The numbers of docs/LAYOUT.md.

pub const ARENA_BYTES: usize = HEADER_BYTES + MAX_NODES * SLOT_BYTES;
pub const HEADER_BYTES: usize = 64;
pub const SLOT_BYTES: usize = 320;

/// The buffer that a snapshot is written to.
pub const SNAPSHOT_BYTES: usize = 65_536;

pub const MAX_NODES: usize = 1_024;
pub const MAX_PATH_BYTES: usize = 32_768;

/// The number that is no node (`NodeId::INVALID`).
pub const INVALID: u32 = u32::MAX;

/// Where things stand in the header.
pub const COUNT: usize = 0;
pub const ORDERED: usize = 4;
pub const FINALIZED: usize = 5;
pub const SHALLOW: usize = 6;
pub const LOCAL_ROOT: usize = 8;

/// Where things stand in a slot.
pub const FIRST_CHILD: usize = 0;
pub const LAST_CHILD: usize = 4;
pub const NEXT_SIBLING: usize = 8;
pub const ORDER_ENTRY: usize = 12;
pub const PRIM_COUNT: usize = 16;
pub const RECORD_LENGTH: usize = 17;
pub const RECORD: usize = 19;

/// Where slot `n` begins.
pub fn slot_at(n: usize) -> usize {
    HEADER_BYTES + SLOT_BYTES * n
}

/// The 16-bit number at a place; the place must be within the bytes.
pub fn u16_at(bytes: &[u8], at: usize) -> u16 {
    u16::from_be_bytes([bytes[at], bytes[at + 1]])
}

/// The 32-bit number at a place; the place must be within the bytes.
pub fn u32_at(bytes: &[u8], at: usize) -> u32 {
    u32::from_be_bytes([bytes[at], bytes[at + 1], bytes[at + 2], bytes[at + 3]])
}

/// Puts a 32-bit number at a place.
pub fn put_u32(bytes: &mut [u8], at: usize, number: u32) {
    bytes[at..at + 4].copy_from_slice(&number.to_be_bytes());
}
