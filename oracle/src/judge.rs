//! The accepted calls. What each one answers, and what it does to the graph, is the Rust's `PrimIndexGraph`. Whether a
//! call is accepted has been decided before, in `narrowing.rs`.

use crate::flags;
use crate::line::Setting;
use crate::pcp::LayerId;
use crate::pcp::layer_stack::LayerStackId;
use crate::pcp::mapping::MapFunction;
use crate::pcp::prim_graph::{ArcType, NodeDesc, NodeFlags, NodeId, PrimIndexGraph};
use crate::record::Record;
use crate::sdf::Path;

/// The Rust's graph, the one mark it does not keep, whether its strength order is current, and whether there is a graph
/// at all (document 01: a room).
#[derive(Clone, Default)]
pub struct Judge {
    graph: PrimIndexGraph,
    ordered: bool,
    rubbish: bool,
}

/// The three marks of a graph.
#[derive(Debug, PartialEq, Eq)]
pub struct Marks {
    pub ordered: bool,
    pub finalized: bool,
    pub shallow: bool,
}

impl Judge {
    /// Bytes that hold no graph.
    pub fn rubbish() -> Self {
        Self { rubbish: true, ..Self::default() }
    }

    pub fn is_graph(&self) -> bool {
        !self.rubbish
    }

    /// The Rust's graph, to be asked.
    pub fn graph(&self) -> &PrimIndexGraph {
        &self.graph
    }

    pub fn init_root(&mut self, stack: u32, layer: u32, path: Path) -> NodeId {
        self.graph.init_root(LayerStackId(stack), LayerId(layer), path)
    }

    /// Adding clears ordered here, and finalized in the Rust.
    pub fn add_child(&mut self, parent: NodeId, desc: NodeDesc) -> NodeId {
        self.ordered = false;
        self.graph.add_child(parent, desc)
    }

    /// Node 0 as a snapshot's record 0 has it.
    pub fn init_from(&mut self, desc: NodeDesc) {
        let depth = desc.namespace_depth.unwrap_or(0);
        let prohibited = desc.flags & NodeFlags::PROHIBITED_CHILDREN;
        let root = self.graph.init_root(desc.layer_stack, desc.representative, desc.path);
        self.graph.mark(root, prohibited);
        self.graph.set_has_specs(root, desc.has_specs);
        self.graph.set_restriction_depth(root, desc.restriction_depth);
        self.graph.set_root_fields(depth, desc.sibling_num_at_origin, desc.flags, desc.spec_from);
    }

    /// The fields of each node.
    pub fn records(&self) -> Vec<Record<'_>> {
        self.graph.nodes().map(|node| self.record(node.id())).collect()
    }

    fn record(&self, id: NodeId) -> Record<'_> {
        let node = self.graph.node(id);
        Record {
            arc: node.arc() as u8,
            flags: flags::to_byte(node.flags()),
            stack: node.layer_stack_id().0,
            layer: node.layer_id().0,
            parent: node.parent().map(|parent| parent.0),
            origin: node.origin().map(|origin| origin.0),
            depth: Some(node.namespace_depth()),
            sibling: node.sibling_num_at_origin(),
            restriction: node.restriction_depth(),
            spec_from: self.stored_spec_from(id),
            has_specs: node.has_specs().into(),
            path: node.path().as_str().as_bytes(),
        }
    }

    /// The `spec_from` that was given. The Rust's getter answers 0 for a node without specs; of such a node it is read
    /// where the Rust shows it, in its debug text.
    fn stored_spec_from(&self, id: NodeId) -> u16 {
        let node = self.graph.node(id);
        if node.has_specs() {
            return node.spec_from();
        }
        let shown = format!("{node:?}");
        let number = shown.split("spec_from: ").nth(1).and_then(|rest| rest.split(',').next());
        number.and_then(|number| number.parse().ok()).unwrap_or(0)
    }

    pub fn marks(&self) -> Marks {
        Marks { ordered: self.ordered, finalized: self.is_finalized(), shallow: self.shows("shallow_parent: true") }
    }

    pub fn is_finalized(&self) -> bool {
        self.shows("finalized: true")
    }

    /// Whether the Rust's debug text of the graph has `field` in it: that text is all it shows of its own two marks. No
    /// path can be taken for a field, since a path has no space.
    fn shows(&self, field: &str) -> bool {
        format!("{:?}", self.graph).contains(field)
    }

    pub fn finalize_strength_order(&mut self) {
        self.graph.finalize_strength_order();
        self.ordered = true;
    }

    pub fn is_ordered(&self) -> bool {
        self.ordered
    }

    pub fn cull(&mut self) {
        self.graph.cull_subtrees_without_opinions();
    }

    /// Erases and answers how many nodes are kept; the Rust answers how many it copied.
    pub fn erase(&mut self, goes: &[bool]) -> usize {
        self.graph.erase(goes);
        self.graph.len()
    }

    /// Deepening keeps the order of a finalized graph only.
    pub fn deepen(&mut self, child: &Path) {
        self.ordered = self.is_finalized();
        self.graph.append_child_name_to_all_sites(child);
    }

    /// Sets one thing of a node. Neither the comparisons nor the order read any of these, and the Rust keeps finalized.
    pub fn set(&mut self, id: NodeId, setting: Setting) {
        match setting {
            Setting::Mark(byte) => self.graph.mark(id, flags::from_byte(byte)),
            Setting::FirstSpec(first) => self.graph.set_first_spec(id, first),
            Setting::HasSpecs(has_specs) => self.graph.set_has_specs(id, has_specs),
            Setting::Restriction(depth) => self.graph.set_restriction_depth(id, depth),
        }
    }

    /// The graph of the child prim, marked as [`deepen`](Self::deepen) marks it.
    pub fn seed_child(&self, child: &Path) -> Self {
        Self { graph: self.graph.seed_child(child), ordered: self.is_finalized(), rubbish: false }
    }
}

/// The Rust's `path_at_intro_depth`. It is private, so it is asked through `path_at_introduction`, of a node with this
/// path that is `steps` below its introduction. A path has at most 127 names: 127 steps lead to `/`, where more stay.
pub fn path_at_intro_depth(path: Path, steps: u16) -> Path {
    const MOST: u16 = 127;
    let deepest = Path::parse("/a".repeat(MOST.into()).as_bytes()).unwrap_or(Path::abs_root());
    let (stack, layer) = (LayerStackId(0), LayerId(0));
    let mut graph = PrimIndexGraph::default();
    let root = graph.init_root(stack, layer, deepest);
    let mut desc = NodeDesc::new(stack, layer, path, ArcType::Reference, MapFunction::identity());
    desc.namespace_depth = Some(MOST - steps.min(MOST));
    let node = graph.add_child(root, desc);
    graph.path_at_introduction(node)
}
