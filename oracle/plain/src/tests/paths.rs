//! Reading paths.

use super::definitions;
use crate::path::prim_count;

/// A byte of each sort that the rules tell apart.
const BYTES: &[u8; 10] = b"/{}=_-|a0.";

/// Every string of up to five such bytes, alone and behind the beginnings of selections.
#[test]
fn short_strings() {
    for start in [&b""[..], b"/A{v", b"/A{v=", b"/A{v=}"] {
        for length in 0..=5 {
            for code in 0..BYTES.len().pow(length) {
                let rest = (0..length).map(|place| BYTES[code / BYTES.len().pow(place) % BYTES.len()]);
                let path: Vec<u8> = start.iter().copied().chain(rest).collect();
                let names = definitions::well_formed(&path).then(|| definitions::prim_count(&path) as u8);
                assert_eq!(prim_count(&path), names, "{}", String::from_utf8_lossy(&path));
            }
        }
    }
}
