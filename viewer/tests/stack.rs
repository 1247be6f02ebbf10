//! No function uses more of the stack than is stated.
#[path = "common/stack.rs"]
mod stack;

use plain::layout::MAX_NODES;
use plain::samples::graphs::snapshot;
use plain::samples::ordered::CYCLES;
use plain::stack::STATED_BYTES;
use viewer::STACK_BYTES;

/// Random graphs between the shapes.
const SEED: u64 = 1;
const GRAPHS: u64 = 20;

#[test]
fn stated_stack() {
    for most in stack::deepest(SEED, GRAPHS) {
        assert!(most.bytes <= STACK_BYTES, "a function uses more than {STACK_BYTES} bytes of the stack: {most}");
    }
}

/// Ordering compares through origins only to show a cycle.
#[test]
fn cycles_are_refused() {
    for (name, shape) in CYCLES {
        let mut arena = viewer::empty_arena();
        viewer::read_snapshot(&mut arena, &snapshot(&shape(MAX_NODES))).expect("a graph");
        assert!(viewer::finalize_strength_order(&mut arena).is_err(), "{name}");
    }
}

#[test]
fn one_number_is_stated() {
    assert_eq!(STACK_BYTES, STATED_BYTES);
    let header = include_str!("../include/cadgweri.h");
    assert!(header.contains(&format!("#define CADGWERI_STACK_BYTES {STACK_BYTES}\n")));
}
