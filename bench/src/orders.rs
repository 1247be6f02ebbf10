//! Ordering arenas: the proved call against plain Rust, by the answer and by every byte of the arena; and whether there
//! is an order, decided by all pairs alone.
use plain::layout::ARENA_BYTES;
use plain::order;
use plain::random::Random;
use plain::samples::arenas::shuffle;
use plain::samples::graphs::{Node, snapshot};
use plain::samples::twisted::{large, small};

use crate::proved;

/// Graphs of one size: their name, how one is made, and one in how many at least must have no order.
struct Size {
    name: &'static str,
    graph: fn(&mut Random) -> Vec<Node>,
    refused: usize,
}

const SIZES: [Size; 2] = [
    Size { name: "up to 24 nodes", graph: small, refused: 5 },
    Size { name: "up to 1,024 nodes", graph: large, refused: 10 },
];

/// Orders so many graphs of each size. Answers whether all agree and enough of each size are without an order.
pub fn compare(seed: u64, small: usize, large: usize) -> bool {
    let mut random = Random::new(seed);
    let mut texts = Vec::new();
    for (count, size) in [small, large].into_iter().zip(SIZES) {
        let Some(refused) = refused(&mut random, count, &size) else { return false };
        if refused * size.refused < count {
            println!("of {} only {refused} of {count} are without an order, not one in {}", size.name, size.refused);
            return false;
        }
        texts.push(format!("{} and {refused} of {}", count - refused, size.name));
    }
    println!("arenas ordered as they should be, and without an order left as they were: {}", texts.join(", "));
    true
}

/// How many of so many graphs have no order; nothing where one is ordered otherwise than plain Rust has it.
fn refused(random: &mut Random, count: usize, size: &Size) -> Option<usize> {
    let mut refused = 0;
    for at in 0..count {
        let nodes = (size.graph)(random);
        let Some(ordered) = agreed(&nodes, random) else {
            println!("graph {at} of {} is ordered otherwise: {nodes:?}", size.name);
            return None;
        };
        refused += usize::from(!ordered);
    }
    Some(refused)
}

/// Whether the graph has an order; nothing where the answers or the arenas differ.
fn agreed(nodes: &[Node], random: &mut Random) -> Option<bool> {
    let mut arena = arena_of(nodes, random);
    let mut expected = arena.clone();
    let lists = order::sorted(nodes);
    lists.iter().for_each(|lists| order::write(lists, &mut expected));
    let answer = if lists.is_some() { Ok(0) } else { Err(9) };
    let decided = proved::has_order(&arena) == u32::from(lists.is_some());
    let ordered = proved::finalize_strength_order(&mut arena) == answer && arena == expected;
    (decided && ordered).then_some(lists.is_some())
}

/// Any bytes where the graph uses none; the child lists of one in three as another order left them.
fn arena_of(nodes: &[Node], random: &mut Random) -> Vec<u8> {
    let mut arena = vec![random.byte(); ARENA_BYTES];
    assert_eq!(plain::snapshot::read(&snapshot(nodes), &mut arena), Ok(nodes.len()));
    if random.one_in(3) {
        let mut lists = vec![Vec::new(); nodes.len()];
        let children = nodes.iter().enumerate().skip(1);
        children.for_each(|(child, node)| lists[node.parent as usize].push(child));
        lists.iter_mut().for_each(|list| shuffle(random, list));
        order::write_links(&lists, &mut arena);
    }
    arena
}
