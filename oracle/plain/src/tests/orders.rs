//! Graphs whose nodes are added in another sequence, and where node numbers decide.

use crate::layout::{ARENA_BYTES, INVALID, MAX_NODES};
use crate::order::sorted;
use crate::random::Random;
use crate::record::{HAS_SPECIALIZES, INERT, ROOT, SPECIALIZE};
use crate::samples::graphs::{Node, snapshot};
use crate::samples::ordered::ORDERED_SHAPES;
use crate::samples::orders::{largest, numbers_decide, resequenced, small};
use crate::samples::twisted;

/// The nodes without their links, in an order of their own.
fn fields(nodes: &[Node]) -> Vec<String> {
    let unlinked = |node: &Node| format!("{:?}", Node { parent: 0, origin: 0, ..node.clone() });
    let mut fields: Vec<String> = nodes.iter().map(unlinked).collect();
    fields.sort();
    fields
}

/// From the node up to node 0: the paths of the nodes, and those of their origins.
fn paths_above(nodes: &[Node], at: usize) -> Vec<(Vec<u8>, Vec<u8>)> {
    let mut paths = Vec::new();
    let mut at = at as u32;
    while at != 0 {
        let node = &nodes[at as usize];
        paths.push((node.path.clone(), nodes[node.origin as usize].path.clone()));
        at = node.parent;
    }
    paths
}

fn all_paths_above(nodes: &[Node]) -> Vec<Vec<(Vec<u8>, Vec<u8>)>> {
    let mut all: Vec<_> = (0..nodes.len()).map(|at| paths_above(nodes, at)).collect();
    all.sort();
    all
}

#[test]
fn sequences() {
    let mut random = Random::new(21);
    let mut arena = vec![0; ARENA_BYTES];
    let mut others = 0;
    for _ in 0..2_000 {
        let nodes = small(&mut random);
        let sequence = resequenced(&mut random, &nodes);
        assert_eq!(crate::snapshot::read(&snapshot(&sequence), &mut arena), Ok(nodes.len()));
        assert_eq!(fields(&sequence), fields(&nodes));
        assert_eq!(all_paths_above(&sequence), all_paths_above(&nodes));
        others += usize::from(sequence != nodes);
    }
    assert!(others > 1_200, "{others}");
}

/// Two of an arc below the local root, and with these sibling numbers.
fn two(arc: u8, first: u16, second: u16) -> Vec<Node> {
    let root = Node { arc: ROOT, flags: INERT, parent: INVALID, origin: INVALID, ..Node::reference(b"/M".into()) };
    let local_root = Node { arc: ROOT, ..Node::reference(b"/M".into()) };
    let flags = if arc == SPECIALIZE { HAS_SPECIALIZES } else { 0 };
    let child = |sibling| Node { arc, flags, parent: 1, origin: 1, sibling, ..Node::reference(b"/A".into()) };
    vec![root, local_root, child(first), child(second)]
}

#[test]
fn numbers() {
    for arc in 1..=6 {
        assert!(numbers_decide(&two(arc, 5, 5)));
        assert!(!numbers_decide(&two(arc, 5, 4)));
        let mut nested = two(arc, 5, 5);
        nested[3].parent = 2;
        assert!(!numbers_decide(&nested));
    }
}

/// Each is a graph with an order; the local root of one shape is its last node.
#[test]
fn shapes() {
    let mut arena = vec![0; ARENA_BYTES];
    for (name, shape) in ORDERED_SHAPES {
        for count in [16, 100] {
            let nodes = shape(count);
            assert_eq!(crate::snapshot::read(&snapshot(&nodes), &mut arena), Ok(count));
            assert!(sorted(&nodes).is_some(), "{name}");
            assert_eq!(
                nodes.iter().rposition(|node| node.arc == ROOT),
                Some(if name == "late" { count - 1 } else { 1 })
            );
        }
    }
}

#[test]
fn largest_graphs() {
    let mut random = Random::new(22);
    let mut arena = vec![0; ARENA_BYTES];
    let mut short = 0;
    for _ in 0..50 {
        let nodes = largest(&mut random);
        assert_eq!(crate::snapshot::read(&snapshot(&nodes), &mut arena), Ok(MAX_NODES));
        let mut lengths = vec![0; MAX_NODES];
        nodes.iter().skip(1).for_each(|node| lengths[node.parent as usize] += 1);
        short += usize::from(lengths.iter().all(|&length| length < 250));
    }
    assert!((35..50).contains(&short), "{short}");
}

/// The snapshot of the pairs is the one that was once slow to order.
#[test]
fn pairs_of_1_024() {
    let [(_, pairs)] = ORDERED_SHAPES.iter().filter(|(name, _)| *name == "pairs").collect::<Vec<_>>()[..] else {
        panic!("one shape of pairs");
    };
    assert_eq!(snapshot(&pairs(MAX_NODES)).len(), 31_751);
}

/// All are graphs of the size asked for; between a fifth and a half of the small ones have no order.
#[test]
fn twisted_graphs() {
    let mut random = Random::new(23);
    let mut arena = vec![0; ARENA_BYTES];
    let mut refused = 0;
    for _ in 0..4_000 {
        let nodes = twisted::small(&mut random);
        assert_eq!(crate::snapshot::read(&snapshot(&nodes), &mut arena), Ok(nodes.len()));
        refused += usize::from(sorted(&nodes).is_none());
    }
    assert!((800..2_000).contains(&refused), "{refused}");
    for count in [1, 2, 3, 30, MAX_NODES, MAX_NODES] {
        let nodes = twisted::twisted(&mut random, count);
        assert_eq!(crate::snapshot::read(&snapshot(&nodes), &mut arena), Ok(count));
    }
}
