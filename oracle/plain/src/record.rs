//! A node's record, and checks 4 to 7 of document 01 (there: questions), record by record.

use crate::layout::{INVALID, MAX_NODES, MAX_PATH_BYTES, u16_at, u32_at};
use crate::path;

/// The bytes of a record after its length and before its path.
pub const FIXED_BYTES: usize = 27;

pub const ROOT: u8 = 0;
pub const INHERIT: u8 = 1;
pub const RELOCATE: u8 = 3;
pub const REFERENCE: u8 = 4;
pub const SPECIALIZE: u8 = 6;

pub const INERT: u8 = 1;
pub const CULLED: u8 = 2;
pub const HAS_SPECIALIZES: u8 = 8;

/// Where things stand in a record.
pub const ARC: usize = 0;
pub const FLAGS: usize = 1;
pub const STACK: usize = 2;
pub const PARENT: usize = 10;
pub const ORIGIN: usize = 14;
pub const DEPTH: usize = 18;
pub const HAS_SPECS: usize = 26;

/// A record without its length.
#[derive(Debug, Clone, Copy)]
pub struct Record<'a> {
    pub fields: &'a [u8; FIXED_BYTES],
    pub path: &'a [u8],
}

impl<'a> Record<'a> {
    /// The record in `bytes`, which must be 28 to 282.
    pub fn new(bytes: &'a [u8]) -> Option<Self> {
        let (fields, path) = bytes.split_first_chunk()?;
        (1..=path::MAX_BYTES).contains(&path.len()).then_some(Self { fields, path })
    }

    pub fn arc(self) -> u8 {
        self.fields[ARC]
    }

    pub fn flags(self) -> u8 {
        self.fields[FLAGS]
    }

    pub fn stack(self) -> u32 {
        u32_at(self.fields, STACK)
    }

    pub fn parent(self) -> u32 {
        u32_at(self.fields, PARENT)
    }

    pub fn origin(self) -> u32 {
        u32_at(self.fields, ORIGIN)
    }

    pub fn depth(self) -> u16 {
        u16_at(self.fields, DEPTH)
    }

    pub fn has_specs(self) -> u8 {
        self.fields[HAS_SPECS]
    }
}

/// What is known of the records accepted so far.
pub struct Accepted {
    pub count: usize,
    pub path_bytes: usize,
    /// 0 where there is none.
    pub local_root: u32,
    /// Whether a depth is beyond the parent's path.
    pub shallow: bool,
    /// The prim count of each node's path.
    pub prim_counts: [u8; MAX_NODES],
}

impl Accepted {
    pub fn none() -> Self {
        Self { count: 0, path_bytes: 0, local_root: 0, shallow: false, prim_counts: [0; MAX_NODES] }
    }

    /// Accepts one record more and answers its prim count, or the number of the first check that fails.
    pub fn add(&mut self, record: Record) -> Result<u8, u8> {
        if !self.links_allowed(record) {
            return Err(4);
        }
        let prim_count = path::prim_count(record.path).ok_or(5)?;
        if !self.kind_allowed(record) {
            return Err(6);
        }
        let path_bytes = self.path_bytes + record.path.len();
        if self.count >= MAX_NODES || path_bytes > MAX_PATH_BYTES {
            return Err(7);
        }
        if self.count > 0 {
            self.shallow |= u16::from(self.prim_counts[record.parent() as usize]) < record.depth();
            if record.arc() == ROOT {
                self.local_root = self.count as u32;
            }
        }
        self.prim_counts[self.count] = prim_count;
        self.count += 1;
        self.path_bytes = path_bytes;
        Ok(prim_count)
    }

    fn links_allowed(&self, record: Record) -> bool {
        if self.count == 0 {
            let inert_root = record.arc() == ROOT && record.flags() & INERT != 0;
            return inert_root && record.parent() == INVALID && record.origin() == INVALID;
        }
        (record.parent() as usize) < self.count && (record.origin() as usize) < self.count
    }

    fn kind_allowed(&self, record: Record) -> bool {
        let placed = self.count == 0 || (record.parent() == 0 && self.local_root == 0);
        let arc = match record.arc() {
            ROOT => placed && record.flags() & CULLED == 0,
            arc => arc <= SPECIALIZE,
        };
        arc && record.has_specs() <= 1
    }
}
