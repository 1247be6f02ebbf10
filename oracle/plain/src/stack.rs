//! How much of the stack a call uses: the stack of a thread is filled with a pattern, and after the call the deepest word
//! that has changed is looked for.

use std::{fmt, ptr, thread};

use crate::samples::deepest::{of_seeds, shapes};
use crate::samples::graphs::Node;

/// What is stated for each call (`docs/LAYOUT.md`, "The stack").
pub const STATED_BYTES: usize = 262_144;

/// What a thread may have used of its stack before it makes the first call.
const START_BYTES: usize = 16_384;

/// The stack of the thread, and how much of it is filled. No call may use more than that.
const THREAD_BYTES: usize = 8 << 20;
const FILLED_BYTES: usize = 4 << 20;

/// Bytes below the caller that are not filled, since filling them uses some itself. No call is found to use less.
pub const LEAST_BYTES: usize = 1_024;

const WORD: usize = size_of::<usize>();

/// Bytes of the stack that the call uses below its caller.
pub fn used(call: impl FnOnce() + Send) -> usize {
    thread::scope(|scope| {
        let thread = thread::Builder::new().stack_size(THREAD_BYTES).spawn_scoped(scope, || measured(call));
        thread.expect("a thread").join().expect("a call that returns")
    })
}

/// Calls in a thread that has this much stack. Where it does not suffice, the process is killed.
pub fn within(bytes: usize, call: impl FnOnce() + Send) {
    thread::scope(|scope| {
        let thread = thread::Builder::new().stack_size(bytes).spawn_scoped(scope, call);
        thread.expect("a thread").join().expect("a call that returns")
    })
}

/// A call's name, and what is called of it on a graph.
pub type Call<G> = (&'static str, fn(&G));

/// The most that a call uses, the least, and the first graph on which it uses the most.
pub struct Most {
    call: &'static str,
    pub bytes: usize,
    least: usize,
    on: String,
}

impl Most {
    fn new(call: &'static str) -> Self {
        Self { call, bytes: 0, least: usize::MAX, on: String::new() }
    }

    fn take(&mut self, bytes: usize, on: &str) {
        self.least = self.least.min(bytes);
        if bytes > self.bytes {
            (self.bytes, self.on) = (bytes, on.into());
        }
    }
}

/// A row of a Markdown table.
impl fmt::Display for Most {
    fn fmt(&self, f: &mut fmt::Formatter<'_>) -> fmt::Result {
        let on = if self.least == self.bytes { "any graph" } else { &self.on };
        write!(f, "| `{}` | {} | {on} |", self.call, self.bytes)
    }
}

/// Measures each call on every shape and on so many random graphs. Where all use no more than is stated, makes them once
/// more in a thread with no more stack than that.
pub fn deepest<G: Sync>(calls: &[Call<G>], make: fn(&[Node]) -> G, seed: u64, count: u64) -> Vec<Most> {
    let mut most: Vec<Most> = calls.iter().map(|&(call, _)| Most::new(call)).collect();
    for (name, nodes) in shapes().chain(of_seeds(seed, count)) {
        let graph = make(&nodes);
        calls.iter().zip(&mut most).for_each(|((_, call), most)| most.take(used(|| call(&graph)), &name));
        if most.iter().all(|most| most.bytes <= STATED_BYTES) {
            within(STATED_BYTES + START_BYTES, || calls.iter().for_each(|(_, call)| call(&graph)));
        }
    }
    most
}

fn measured(call: impl FnOnce()) -> usize {
    let here = [0_u8; WORD];
    let top = here.as_ptr().addr() / WORD * WORD;
    fill(top);
    call();
    let used = top - deepest_changed(top);
    assert!(used < FILLED_BYTES, "the call uses all of the stack that is filled");
    used
}

/// The addresses of the words that are filled, the deepest first.
fn words(top: usize) -> impl Iterator<Item = usize> {
    (top - FILLED_BYTES..top - LEAST_BYTES).step_by(WORD)
}

#[inline(never)]
fn fill(top: usize) {
    // SAFETY: the words are of this thread's stack, below every frame that is in use.
    words(top).for_each(|at| unsafe { ptr::with_exposed_provenance_mut::<usize>(at).write_volatile(pattern(at)) });
}

/// The address of the deepest word that has changed, or of the first that was not filled.
#[inline(never)]
fn deepest_changed(top: usize) -> usize {
    // SAFETY: the words are of this thread's stack, and were filled.
    let changed = |&at: &usize| unsafe { ptr::with_exposed_provenance::<usize>(at).read_volatile() != pattern(at) };
    words(top).find(changed).unwrap_or(top - LEAST_BYTES)
}

/// Another word at each address, such as no call writes there but by chance.
fn pattern(at: usize) -> usize {
    !at.rotate_left(17)
}
