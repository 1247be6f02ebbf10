//! Document 01's flag byte and the Rust's flags.

use crate::pcp::prim_graph::NodeFlags;

pub const INERT: u8 = 1;
pub const CULLED: u8 = 2;
pub const PROHIBITED_CHILDREN: u8 = 4;
pub const HAS_SPECIALIZES: u8 = 8;

/// Each bit of the byte, from 1 to 128, and the Rust's bit for it. The upper four mean nothing and are given back as
/// they came: the Rust names none of the bits 12 to 15, so it never reads them.
const BITS: [NodeFlags; 8] = [
    NodeFlags::INERT,
    NodeFlags::CULLED,
    NodeFlags::PROHIBITED_CHILDREN,
    NodeFlags::HAS_SPECIALIZES,
    NodeFlags::from_bits_retain(1 << 12),
    NodeFlags::from_bits_retain(1 << 13),
    NodeFlags::from_bits_retain(1 << 14),
    NodeFlags::from_bits_retain(1 << 15),
];

pub fn from_byte(byte: u8) -> NodeFlags {
    let set = (0..8).filter(|bit| byte >> bit & 1 == 1);
    set.fold(NodeFlags::empty(), |flags, bit| flags | BITS[bit])
}

pub fn to_byte(flags: NodeFlags) -> u8 {
    let set = (0..8).filter(|&bit| flags.contains(BITS[bit]));
    set.fold(0, |byte, bit| byte | 1 << bit)
}
