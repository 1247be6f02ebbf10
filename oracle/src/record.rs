//! The fields of one node, as an `add` line or a snapshot gives them: no more is known of them than their widths.

/// The number that is no node (`NodeId::INVALID`).
pub const NO_NODE: u32 = u32::MAX;

#[derive(Debug, Clone, Copy, PartialEq, Eq)]
pub struct Record<'a> {
    pub arc: u8,
    pub flags: u8,
    pub stack: u32,
    pub layer: u32,
    pub parent: Option<u32>,
    pub origin: Option<u32>,
    /// Only an `add` line may leave it out.
    pub depth: Option<u16>,
    pub sibling: u16,
    pub restriction: u16,
    pub spec_from: u16,
    pub has_specs: u8,
    pub path: &'a [u8],
}

/// The node that a number gives, if it gives one.
pub fn node_given(number: u32) -> Option<u32> {
    (number != NO_NODE).then_some(number)
}
