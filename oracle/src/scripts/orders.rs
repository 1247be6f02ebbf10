//! Lines that order graphs: each is read, or made node by node, and shown before it is ordered and after.

use std::io::{self, Write};

use plain::layout::MAX_NODES;
use plain::random::Random;
use plain::record::CULLED;
use plain::samples::graphs::{Node, snapshot};
use plain::samples::orders::{full, large, resequenced, settled, small};

use crate::calls::hex;

/// All that a graph shows, before and after.
const ORDER: &str = "write\norder\nchains\nlist\nmarks\nwrite";

/// Graphs of up to 20 nodes.
pub fn orders(seed: u64, count: usize, out: &mut dyn Write) -> io::Result<()> {
    let mut random = Random::new(seed);
    for _ in 0..count {
        if random.one_in(50) {
            writeln!(out, "new\n{ORDER}")?;
        }
        let nodes = small(&mut random);
        order(&mut random, &nodes, out)?;
    }
    Ok(())
}

/// So many graphs of up to 200 nodes, and of each ten one of 1,024.
pub fn orders_large(seed: u64, count: usize, out: &mut dyn Write) -> io::Result<()> {
    let mut random = Random::new(seed);
    for at in 0..count {
        let nodes = large(&mut random, 200);
        order(&mut random, &nodes, out)?;
        if at % 10 == 9 {
            read(&full(&mut random, MAX_NODES), out)?;
            writeln!(out, "{ORDER}")?;
        }
    }
    Ok(())
}

/// So many graphs between whose siblings node numbers never decide; and each again, its nodes added in another
/// sequence.
pub fn sequences(seed: u64, count: usize, out: &mut dyn Write) -> io::Result<()> {
    list_twice(seed, count, false, out)
}

/// The same where they do.
pub fn sequences_by_number(seed: u64, count: usize, out: &mut dyn Write) -> io::Result<()> {
    list_twice(seed, count, true, out)
}

fn list_twice(seed: u64, count: usize, by_numbers: bool, out: &mut dyn Write) -> io::Result<()> {
    let mut random = Random::new(seed);
    for _ in 0..count {
        let nodes = settled(&mut random, by_numbers);
        for nodes in [&nodes, &resequenced(&mut random, &nodes)] {
            add_all(nodes, out)?;
            writeln!(out, "order\nlist\ndump")?;
        }
    }
    Ok(())
}

/// Makes a graph and orders it; now and then once more, or with one node more.
fn order(random: &mut Random, nodes: &[Node], out: &mut dyn Write) -> io::Result<()> {
    if random.one_in(4) {
        add_all(nodes, out)?
    } else {
        read(nodes, out)?
    }
    writeln!(out, "{ORDER}")?;
    if random.one_in(8) {
        writeln!(out, "{ORDER}")?;
    }
    if random.one_in(8) {
        let like = random.below(nodes.len());
        let (parent, origin) = (random.below(nodes.len()) as u32, random.below(nodes.len()) as u32);
        add(&Node { parent, origin, ..nodes[like].clone() }, out)?;
        writeln!(out, "chains\nlist\nmarks\n{ORDER}")?;
    }
    Ok(())
}

/// The line that reads these nodes.
pub fn read(nodes: &[Node], out: &mut dyn Write) -> io::Result<()> {
    writeln!(out, "read {}", hex(&snapshot(nodes)))
}

/// The lines that add them. Node 0 is started with its site; its other fields are as starting has them.
pub fn add_all(nodes: &[Node], out: &mut dyn Write) -> io::Result<()> {
    let root = &nodes[0];
    writeln!(out, "new\ninit {} {} {}", root.stack, root.layer, text(root))?;
    nodes[1..].iter().try_for_each(|node| add(node, out))
}

/// Without CULLED, which may not be added.
fn add(node: &Node, out: &mut dyn Write) -> io::Result<()> {
    let Node { arc, stack, layer, parent, origin, depth, sibling, restriction, spec_from, has_specs, .. } = node;
    let (flags, path) = (node.flags & !CULLED, text(node));
    writeln!(
        out,
        "add {parent} {arc} {flags} {stack} {layer} {origin} {depth} {sibling} {restriction} {spec_from} {has_specs} {path}"
    )
}

fn text(node: &Node) -> String {
    String::from_utf8_lossy(&node.path).into()
}
