//! The strength graph of one prim index, for a viewer: a snapshot is read into an arena, and its nodes are compared and
//! ordered. Each function is a proved one of `crates/c_api`, called through its C interface (`include/cadgweri.h`). None
//! needs anything of its arguments: whatever the bytes and the numbers are, the answer is a value or a [`Refusal`].

use std::cmp::Ordering;
use std::{error, fmt};

/// The bytes of an arena, which holds one graph. An arena whose bytes are all 0 holds the empty graph.
pub const ARENA_BYTES: usize = 327_744;

/// The most that a call uses of the stack, whatever it is given: a thread that makes one must have so much left, or the
/// process is killed. It is measured, not proved (`docs/LAYOUT.md`, "The stack").
pub const STACK_BYTES: usize = 262_144;

/// The bytes of the buffer that an order is written to, 4 for each node.
const ORDER_BYTES: usize = 4_096;

unsafe extern "C" {
    fn cadgweri_read_snapshot(arena: *mut u8, arena_length: usize, bytes: *const u8, bytes_length: usize) -> u64;
    fn cadgweri_count(arena: *const u8, arena_length: usize) -> u64;
    fn cadgweri_compare_node_strength(arena: *const u8, arena_length: usize, a: u32, b: u32) -> u64;
    fn cadgweri_compare_sibling_node_strength(arena: *const u8, arena_length: usize, a: u32, b: u32) -> u64;
    fn cadgweri_finalize_strength_order(arena: *mut u8, arena_length: usize) -> u64;
    fn cadgweri_strength_order(arena: *const u8, arena_length: usize, order: *mut u8, order_length: usize) -> u64;
    fn cadgweri_order_entry(arena: *const u8, arena_length: usize, place: u32) -> u64;
}

/// Why a call was refused: the first check whose answer is no. Nothing has then been changed.
#[derive(Debug, Clone, Copy, PartialEq, Eq, Hash)]
pub struct Refusal {
    number: u32,
}

impl Refusal {
    /// The number of the check, from 1 to 12.
    pub fn number(self) -> u32 {
        self.number
    }

    fn words(self) -> &'static str {
        match self.number {
            1 => "the arena has not 327,744 bytes",
            2 => "the arena holds no graph",
            3 => "the graph is empty",
            4 => "a node's number or a place is not below the count, or a record's parent or origin is not before it",
            5 => "a path is malformed",
            6 => "an arc, flags or has-specs is not allowed",
            7 => "there are more than 1,024 nodes or 32,768 bytes of paths",
            8 => "the two nodes have not one parent",
            9 => "the children of some node have no order in which each is stronger than all after it",
            10 => "the graph is not ordered",
            12 => "the version, the count or a length of the snapshot is wrong",
            _ => "a check of another call",
        }
    }
}

impl fmt::Display for Refusal {
    fn fmt(&self, f: &mut fmt::Formatter<'_>) -> fmt::Result {
        write!(f, "refused {}: {}", self.number, self.words())
    }
}

impl error::Error for Refusal {}

/// An arena with the empty graph.
pub fn empty_arena() -> Vec<u8> {
    vec![0; ARENA_BYTES]
}

/// Reads a snapshot into the arena, whatever it held before, and answers how many nodes it has.
pub fn read_snapshot(arena: &mut [u8], bytes: &[u8]) -> Result<u32, Refusal> {
    // SAFETY: both slices are valid for their lengths, and do not overlap, since one is borrowed mutably.
    value(unsafe { cadgweri_read_snapshot(arena.as_mut_ptr(), arena.len(), bytes.as_ptr(), bytes.len()) })
}

/// How many nodes the graph has.
pub fn count(arena: &[u8]) -> Result<u32, Refusal> {
    // SAFETY: the slice is valid for its length, and is only read.
    value(unsafe { cadgweri_count(arena.as_ptr(), arena.len()) })
}

/// Which of two nodes is the stronger: `Less` where `a` is, `Equal` where they are one node.
pub fn compare_node_strength(arena: &[u8], a: u32, b: u32) -> Result<Ordering, Refusal> {
    // SAFETY: the slice is valid for its length, and is only read.
    value(unsafe { cadgweri_compare_node_strength(arena.as_ptr(), arena.len(), a, b) }).map(ordering)
}

/// The same for two nodes with one parent, or for one node twice.
pub fn compare_sibling_node_strength(arena: &[u8], a: u32, b: u32) -> Result<Ordering, Refusal> {
    // SAFETY: the slice is valid for its length, and is only read.
    value(unsafe { cadgweri_compare_sibling_node_strength(arena.as_ptr(), arena.len(), a, b) }).map(ordering)
}

/// Orders the graph, the strongest node first: then it is ordered, and finalized unless it is shallow. A finalized graph
/// stays as it is.
pub fn finalize_strength_order(arena: &mut [u8]) -> Result<(), Refusal> {
    // SAFETY: the slice is valid for its length, and is borrowed mutably.
    value(unsafe { cadgweri_finalize_strength_order(arena.as_mut_ptr(), arena.len()) }).map(|_| ())
}

/// The nodes of an ordered graph, the strongest first.
pub fn strength_order(arena: &[u8]) -> Result<Vec<u32>, Refusal> {
    let mut order = [0; ORDER_BYTES];
    // SAFETY: both slices are valid for their lengths, and do not overlap, since one is our own.
    let count =
        value(unsafe { cadgweri_strength_order(arena.as_ptr(), arena.len(), order.as_mut_ptr(), order.len()) })?;
    let (entries, _) = order.as_chunks();
    Ok(entries.iter().take(count as usize).map(|&entry| u32::from_be_bytes(entry)).collect())
}

/// The node at a place of the order of an ordered graph, from 0 on. Each call checks the arena, so that the whole order
/// is had sooner from [`strength_order`].
pub fn order_entry(arena: &[u8], place: u32) -> Result<u32, Refusal> {
    // SAFETY: the slice is valid for its length, and is only read.
    value(unsafe { cadgweri_order_entry(arena.as_ptr(), arena.len(), place) })
}

/// The refusal is in the upper half of the number, 0 where there is none, and the value in the lower half.
fn value(answer: u64) -> Result<u32, Refusal> {
    match (answer >> 32) as u32 {
        0 => Ok(answer as u32),
        number => Err(Refusal { number }),
    }
}

/// Less is 0, Equal 1 and Greater 2.
fn ordering(value: u32) -> Ordering {
    value.cmp(&1)
}
