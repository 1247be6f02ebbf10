//! Stands for nothing that is imported. It is the one thing the oracle needs and `prim_graph.rs` has no call for: a
//! node 0 with the depth, the sibling number, the arc flags and the `spec_from` of a snapshot's record 0.
//!
//! `init_root` takes the depth of node 0 from its path and leaves the other three at 0, and no call changes them
//! afterwards. Document 01 leaves these fields of record 0 free, and a comparison can read the depth. The fields are
//! private and the file is compiled unchanged, so the only place that sees them is what its own `bitflags!` expands to.
//! This one setter is expanded there; whatever has a call of its own is set by that call.

#[macro_export]
macro_rules! set_root_fields {
    () => {
        impl PrimIndexGraph {
            pub(crate) fn set_root_fields(&mut self, depth: u16, sibling: u16, arc_flags: NodeFlags, spec_from: u16) {
                if let Some(root) = self.data_mut().nodes.first_mut() {
                    root.namespace_depth = depth;
                    root.sibling_num_at_origin = sibling;
                    root.flags = arc_flags - PER_PRIM;
                }
                if let Some(site) = self.sites.first_mut() {
                    site.spec_from = spec_from;
                }
            }
        }
    };
}
