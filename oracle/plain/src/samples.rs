//! Random graphs: as records, as snapshots and as arenas, each whole or damaged.

pub mod arenas;
pub mod culls;
pub mod damaged_arenas;
pub mod damaged_snapshots;
pub mod deepest;
pub mod graphs;
pub mod ordered;
pub mod orders;
pub mod strength;
pub mod twisted;

use crate::random::Random;

/// Names, and with each a set and its selection. Some selections are empty or have `-` or `|`, as document 02, W2, allows.
const WORDS: [(&str, &str); 8] = [
    ("Line", "variant=Line"),
    ("Cell_12", "variant=ac-400|"),
    ("Drive", "variantDrive="),
    ("Filler", "variant=Filler"),
    ("capper02", "variant=02-|-400"),
    ("x", "variant=|"),
    ("Conveyor_long", "variant=Conveyor_long"),
    ("motor", "variantMotor="),
];

/// A path of about `length` bytes, with names as planners write them and now and then a selection.
pub fn path(random: &mut Random, length: usize) -> Vec<u8> {
    let mut path = b"/World".to_vec();
    while path.len() < length {
        let (name, selected) = random.pick(&WORDS);
        if random.one_in(6) {
            path.extend(format!("{{{selected}}}{name}").as_bytes());
        } else {
            path.extend(format!("/{name}").as_bytes());
        }
    }
    path
}
