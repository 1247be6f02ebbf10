//! Snapshots to read: a whole one, then a damaged copy of it, then what is held is written. Beside these a few at a
//! limit or just past it.

use std::io::{self, Write};

use plain::random::Random;
use plain::samples::damaged_snapshots::damaged;
use plain::samples::graphs::{crowded, nodes, snapshot};

use crate::calls::hex;

pub fn snapshots(seed: u64, count: usize, out: &mut dyn Write) -> io::Result<()> {
    let mut random = Random::new(seed);
    for at in 0..count {
        let size = random.below(9);
        let whole = nodes(&mut random, size);
        let other = damaged(&mut random, &whole);
        writeln!(out, "read {}\nread {}\nwrite", hex(&snapshot(&whole)), hex(&other))?;
        if at % 100 == 50 {
            let more = random.below(2);
            writeln!(out, "read {}\nwrite", hex(&snapshot(&crowded(&mut random, more))))?;
        }
    }
    Ok(())
}
