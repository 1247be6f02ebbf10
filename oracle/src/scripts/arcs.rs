//! Lines that compare two siblings of each pair of arcs, whatever else their records say.

use std::io::{self, Write};

use plain::layout::INVALID;
use plain::record::{HAS_SPECIALIZES, INERT, ROOT, SPECIALIZE};
use plain::samples::graphs::Node;

use super::orders::add_all;

/// Two siblings for each pair of arcs that can be siblings, added in both sequences, compared both ways round and
/// ordered. Arc Root is the local root's alone: it is their parent, or one of the two.
pub fn arcs(out: &mut dyn Write) -> io::Result<()> {
    for first in ROOT..=SPECIALIZE {
        for second in ROOT..=SPECIALIZE {
            if first != ROOT || second != ROOT {
                (0..1 << (2 * OTHERS)).try_for_each(|others| siblings(first, second, others, out))?;
            }
        }
    }
    Ok(())
}

/// What the later lines of the comparison read of each of the two: depth, flag, origin and sibling number, a bit each.
const OTHERS: u32 = 4;

fn siblings(first: u8, second: u8, others: u32, out: &mut dyn Write) -> io::Result<()> {
    let top = Node { arc: ROOT, depth: 2, ..Node::reference(b"/Line/Filler".to_vec()) };
    let mut nodes = vec![Node { flags: INERT, parent: INVALID, origin: INVALID, ..top.clone() }];
    if first != ROOT && second != ROOT {
        nodes.push(top);
    }
    let parent = nodes.len() as u32 - 1;
    nodes.push(Node { parent, origin: parent, depth: 2, ..Node::reference(b"/Maker".to_vec()) });
    nodes.push(sibling(first, parent, others, b"/Cell{drive=}"));
    nodes.push(sibling(second, parent, others >> OTHERS, b"/Cell{drive=ac-400|b}"));
    add_all(&nodes, out)?;
    let (a, b) = (parent + 2, parent + 3);
    writeln!(out, "sibling {a} {b}\nsibling {b} {a}\ncompare {a} {b}\ncompare {b} {a}\norder\nlist")
}

/// Its origin is its parent, or the Reference that comes after that.
fn sibling(arc: u8, parent: u32, others: u32, path: &[u8]) -> Node {
    let bit = |at: u32| others >> at & 1;
    Node {
        arc,
        flags: HAS_SPECIALIZES * bit(1) as u8,
        parent,
        origin: parent + bit(2),
        depth: 1 + bit(0) as u16,
        sibling: bit(3) as u16,
        ..Node::reference(path.to_vec())
    }
}
