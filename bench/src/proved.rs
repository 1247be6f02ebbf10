//! The functions of the static library. None has a `requires`, so each takes any slices.

unsafe extern "C" {
    fn bench_prim_count(path: *const u8, length: usize) -> u32;
    fn bench_is_graph(arena: *const u8, length: usize) -> u32;
    fn bench_has_order(arena: *const u8, length: usize) -> u32;
    fn bench_read_snapshot(arena: *mut u8, alen: usize, bytes: *const u8, blen: usize) -> u64;
    fn bench_write_snapshot(arena: *const u8, alen: usize, out: *mut u8, olen: usize) -> u64;
    fn bench_init_root(arena: *mut u8, alen: usize, stack: u32, layer: u32, path: *const u8, plen: usize) -> u64;
    fn bench_add_child(arena: *mut u8, alen: usize, parent: u32, path: *const u8, plen: usize) -> u64;
    fn bench_finalize_strength_order(arena: *mut u8, length: usize) -> u64;
    fn bench_cull(arena: *mut u8, length: usize) -> u64;
    fn bench_erasable(arena: *const u8, alen: usize, set: *mut u8, slen: usize) -> u64;
    fn bench_erase(arena: *mut u8, alen: usize, set: *const u8, slen: usize) -> u64;
    fn bench_append_child_name_to_all_sites(arena: *mut u8, alen: usize, child: *const u8, clen: usize) -> u64;
    fn bench_seed_child(from: *const u8, flen: usize, into: *mut u8, ilen: usize, child: *const u8, clen: usize)
    -> u64;
    fn bench_graph_info(arena: *const u8, length: usize) -> u64;
    fn bench_node(arena: *const u8, length: usize, n: u32) -> u64;
    fn bench_path(arena: *const u8, length: usize, n: u32) -> u64;
    fn bench_path_at_introduction(arena: *const u8, length: usize, n: u32) -> u64;
    fn bench_intro_path(arena: *const u8, length: usize, n: u32) -> u64;
    fn bench_is_due_to_ancestor(arena: *const u8, length: usize, n: u32) -> u64;
    fn bench_mark(arena: *mut u8, length: usize, n: u32, flags: u8) -> u64;
    fn bench_set_first_spec(arena: *mut u8, length: usize, n: u32, first: u16) -> u64;
    fn bench_set_has_specs(arena: *mut u8, length: usize, n: u32, authored: bool) -> u64;
    fn bench_set_restriction_depth(arena: *mut u8, length: usize, n: u32, depth: u16) -> u64;
    fn bench_depth_below_introduction(arena: *const u8, length: usize, n: u32) -> u64;
    fn bench_node_using_site(arena: *const u8, alen: usize, stack: u32, path: *const u8, plen: usize) -> u64;
    fn bench_is_ancestor_of(arena: *const u8, length: usize, x: u32, y: u32) -> u64;
    fn bench_same_site(arena: *const u8, length: usize, a: u32, b: u32) -> u64;
    fn bench_is_propagated_specializes(arena: *const u8, length: usize, n: u32) -> u64;
    fn bench_get_propagated_specializes_node(arena: *const u8, length: usize, n: u32) -> u64;
    fn bench_starting_node_of_class_hierarchy(arena: *const u8, length: usize, n: u32) -> u64;
    fn bench_compare_node_strength(arena: *const u8, length: usize, a: u32, b: u32) -> u64;
    fn bench_compare_pairs(arena: *const u8, alen: usize, pairs: *const u8, plen: usize) -> u64;
    fn bench_compare_sibling_pairs(arena: *const u8, alen: usize, pairs: *const u8, plen: usize) -> u64;
    fn bench_ask_pairs(arena: *const u8, alen: usize, pairs: *const u8, plen: usize, siblings: bool) -> u64;
}

/// The prim count, or 65,536 where the bytes are no path.
pub fn prim_count(path: &[u8]) -> u32 {
    unsafe { bench_prim_count(path.as_ptr(), path.len()) }
}

/// The value, or the refusal: this is in the upper half of the number, 0 where there is none, and the value in the lower
/// half.
fn answer(number: u64) -> Result<u32, u32> {
    match (number >> 32) as u32 {
        0 => Ok(number as u32),
        refusal => Err(refusal),
    }
}

/// Whether the arena holds a graph: 1 or 0.
pub fn is_graph(arena: &[u8]) -> u32 {
    unsafe { bench_is_graph(arena.as_ptr(), arena.len()) }
}

/// Whether the arena holds a graph that has an order, decided by all pairs of siblings: 1 or 0.
pub fn has_order(arena: &[u8]) -> u32 {
    unsafe { bench_has_order(arena.as_ptr(), arena.len()) }
}

/// The count.
pub fn read_snapshot(arena: &mut [u8], bytes: &[u8]) -> Result<u32, u32> {
    answer(unsafe { bench_read_snapshot(arena.as_mut_ptr(), arena.len(), bytes.as_ptr(), bytes.len()) })
}

/// The length.
pub fn write_snapshot(arena: &[u8], out: &mut [u8]) -> Result<u32, u32> {
    answer(unsafe { bench_write_snapshot(arena.as_ptr(), arena.len(), out.as_mut_ptr(), out.len()) })
}

/// The node's number, 0.
pub fn init_root(arena: &mut [u8], stack: u32, layer: u32, path: &[u8]) -> Result<u32, u32> {
    let (start, length) = (arena.as_mut_ptr(), arena.len());
    answer(unsafe { bench_init_root(start, length, stack, layer, path.as_ptr(), path.len()) })
}

/// The node's number.
pub fn add_child(arena: &mut [u8], parent: u32, path: &[u8]) -> Result<u32, u32> {
    answer(unsafe { bench_add_child(arena.as_mut_ptr(), arena.len(), parent, path.as_ptr(), path.len()) })
}

/// 0, and the order in the arena.
pub fn finalize_strength_order(arena: &mut [u8]) -> Result<u32, u32> {
    answer(unsafe { bench_finalize_strength_order(arena.as_mut_ptr(), arena.len()) })
}

/// 0, and the flags in the arena.
pub fn cull(arena: &mut [u8]) -> Result<u32, u32> {
    answer(unsafe { bench_cull(arena.as_mut_ptr(), arena.len()) })
}

/// 0, and the erasable set.
pub fn erasable(arena: &[u8], set: &mut [u8]) -> Result<u32, u32> {
    answer(unsafe { bench_erasable(arena.as_ptr(), arena.len(), set.as_mut_ptr(), set.len()) })
}

/// The count kept.
pub fn erase(arena: &mut [u8], set: &[u8]) -> Result<u32, u32> {
    answer(unsafe { bench_erase(arena.as_mut_ptr(), arena.len(), set.as_ptr(), set.len()) })
}

/// 0, and the longer paths in the arena.
pub fn append_child_name_to_all_sites(arena: &mut [u8], child: &[u8]) -> Result<u32, u32> {
    let (start, length) = (arena.as_mut_ptr(), arena.len());
    answer(unsafe { bench_append_child_name_to_all_sites(start, length, child.as_ptr(), child.len()) })
}

/// 0, and the graph with longer paths in the second arena.
pub fn seed_child(from: &[u8], into: &mut [u8], child: &[u8]) -> Result<u32, u32> {
    let (start, length) = (into.as_mut_ptr(), into.len());
    answer(unsafe { bench_seed_child(from.as_ptr(), from.len(), start, length, child.as_ptr(), child.len()) })
}

/// The local root.
pub fn graph_info(arena: &[u8]) -> Result<u32, u32> {
    answer(unsafe { bench_graph_info(arena.as_ptr(), arena.len()) })
}

/// The first child.
pub fn node(arena: &[u8], n: u32) -> Result<u32, u32> {
    answer(unsafe { bench_node(arena.as_ptr(), arena.len(), n) })
}

/// The length.
pub fn path(arena: &[u8], n: u32) -> Result<u32, u32> {
    answer(unsafe { bench_path(arena.as_ptr(), arena.len(), n) })
}

/// The length.
pub fn path_at_introduction(arena: &[u8], n: u32) -> Result<u32, u32> {
    answer(unsafe { bench_path_at_introduction(arena.as_ptr(), arena.len(), n) })
}

/// The length.
pub fn intro_path(arena: &[u8], n: u32) -> Result<u32, u32> {
    answer(unsafe { bench_intro_path(arena.as_ptr(), arena.len(), n) })
}

/// 1 for yes, 0 for no.
pub fn is_due_to_ancestor(arena: &[u8], n: u32) -> Result<u32, u32> {
    answer(unsafe { bench_is_due_to_ancestor(arena.as_ptr(), arena.len(), n) })
}

/// 0, and the flags in the arena.
pub fn mark(arena: &mut [u8], n: u32, flags: u8) -> Result<u32, u32> {
    answer(unsafe { bench_mark(arena.as_mut_ptr(), arena.len(), n, flags) })
}

/// 0, and the position in the arena.
pub fn set_first_spec(arena: &mut [u8], n: u32, first: u16) -> Result<u32, u32> {
    answer(unsafe { bench_set_first_spec(arena.as_mut_ptr(), arena.len(), n, first) })
}

/// 0, and whether there are specs in the arena.
pub fn set_has_specs(arena: &mut [u8], n: u32, authored: bool) -> Result<u32, u32> {
    answer(unsafe { bench_set_has_specs(arena.as_mut_ptr(), arena.len(), n, authored) })
}

/// 0, and the depth in the arena.
pub fn set_restriction_depth(arena: &mut [u8], n: u32, depth: u16) -> Result<u32, u32> {
    answer(unsafe { bench_set_restriction_depth(arena.as_mut_ptr(), arena.len(), n, depth) })
}

/// The depth.
pub fn depth_below_introduction(arena: &[u8], n: u32) -> Result<u32, u32> {
    answer(unsafe { bench_depth_below_introduction(arena.as_ptr(), arena.len(), n) })
}

/// The node.
pub fn node_using_site(arena: &[u8], stack: u32, path: &[u8]) -> Result<u32, u32> {
    answer(unsafe { bench_node_using_site(arena.as_ptr(), arena.len(), stack, path.as_ptr(), path.len()) })
}

/// 1 or 0.
pub fn is_ancestor_of(arena: &[u8], x: u32, y: u32) -> Result<u32, u32> {
    answer(unsafe { bench_is_ancestor_of(arena.as_ptr(), arena.len(), x, y) })
}

/// 1 or 0.
pub fn same_site(arena: &[u8], a: u32, b: u32) -> Result<u32, u32> {
    answer(unsafe { bench_same_site(arena.as_ptr(), arena.len(), a, b) })
}

/// 1 or 0.
pub fn is_propagated_specializes(arena: &[u8], n: u32) -> Result<u32, u32> {
    answer(unsafe { bench_is_propagated_specializes(arena.as_ptr(), arena.len(), n) })
}

/// The node.
pub fn get_propagated_specializes_node(arena: &[u8], n: u32) -> Result<u32, u32> {
    answer(unsafe { bench_get_propagated_specializes_node(arena.as_ptr(), arena.len(), n) })
}

/// The topmost class.
pub fn starting_node_of_class_hierarchy(arena: &[u8], n: u32) -> Result<u32, u32> {
    answer(unsafe { bench_starting_node_of_class_hierarchy(arena.as_ptr(), arena.len(), n) })
}

/// Less is 0, Equal 1 and Greater 2.
pub fn compare_node_strength(arena: &[u8], a: u32, b: u32) -> Result<u32, u32> {
    answer(unsafe { bench_compare_node_strength(arena.as_ptr(), arena.len(), a, b) })
}

/// The sum of the comparisons of pairs of nodes, each pair two big-endian numbers.
pub fn compare_pairs(arena: &[u8], pairs: &[u8]) -> Result<u32, u32> {
    answer(unsafe { bench_compare_pairs(arena.as_ptr(), arena.len(), pairs.as_ptr(), pairs.len()) })
}

/// The same of pairs of siblings.
pub fn compare_sibling_pairs(arena: &[u8], pairs: &[u8]) -> Result<u32, u32> {
    answer(unsafe { bench_compare_sibling_pairs(arena.as_ptr(), arena.len(), pairs.as_ptr(), pairs.len()) })
}

/// 0, and no comparison: only the questions that both put before they compare.
pub fn ask_pairs(arena: &[u8], pairs: &[u8], siblings: bool) -> Result<u32, u32> {
    answer(unsafe { bench_ask_pairs(arena.as_ptr(), arena.len(), pairs.as_ptr(), pairs.len(), siblings) })
}
