//! The language of the command `calls`: each line is answered by one line.

use std::cmp::Ordering;
use std::mem;

use crate::judge::{self, Judge};
use crate::line::{self, Call, OfNode, Setting};
use crate::narrowing;
use crate::pcp::layer_stack::LayerStackId;
use crate::pcp::prim_graph::{NodeId, PrimIndexGraph};
use crate::record::Record;
use crate::refusal::Refusal;
use crate::sdf::Path;
use crate::snapshot;

/// What one line is answered with.
#[derive(Debug, PartialEq, Eq)]
pub enum Answer {
    Accepted(String),
    Refused(Refusal),
    BadLine,
}

impl Answer {
    /// The line that is printed.
    pub fn text(&self) -> String {
        match self {
            Self::Accepted(text) => text.clone(),
            Self::Refused(refusal) => format!("refused {}", refusal.number),
            Self::BadLine => "bad line".into(),
        }
    }
}

/// The two graphs that the lines work on (document 01: rooms), and what was saved of one of them.
#[derive(Default)]
pub struct Calls {
    current: Judge,
    other: Judge,
    saved: Judge,
}

impl Calls {
    pub fn current(&self) -> &Judge {
        &self.current
    }

    /// Makes the call that `line` writes. A refused call, or a line that is none, changes nothing.
    pub fn answer(&mut self, line: &[u8]) -> Answer {
        if line.is_empty() {
            return Answer::Accepted(String::new());
        }
        match line::parse(line).map(|call| self.ask(call)) {
            Some(Ok(text)) => Answer::Accepted(text),
            Some(Err(refusal)) => Answer::Refused(refusal),
            None => Answer::BadLine,
        }
    }

    fn ask(&mut self, call: Call) -> Result<String, Refusal> {
        if call.asks_for_a_graph() {
            narrowing::is_graph(&self.current)?;
        }
        self.call(call)
    }

    fn call(&mut self, call: Call) -> Result<String, Refusal> {
        match call {
            Call::Path(path) => path_parts(path),
            Call::Back(steps, path) => Ok(text(&judge::path_at_intro_depth(narrowing::path(path)?, steps))),
            Call::Join(path, child) => join_path(path, child),
            Call::New => self.new_graphs(),
            Call::Init(stack, layer, path) => self.init(stack, layer, path),
            Call::Add(record) => self.add(&record),
            Call::Read(bytes) => self.read(&bytes),
            Call::Write => Ok(hex(&snapshot::encode(&self.current.records()))),
            Call::Dump => Ok(joined(self.current.records().iter().map(record_text), ";")),
            Call::Chains => Ok(self.chains()),
            Call::Marks => Ok(self.marks()),
            Call::Compare(a, b) => self.compare(a, b),
            Call::Sibling(a, b) => self.sibling(a, b),
            Call::Compares => self.compares(),
            Call::Ancestor(x, y) => self.test_pair(x, y, PrimIndexGraph::is_ancestor_of),
            Call::Site(a, b) => self.test_pair(a, b, PrimIndexGraph::same_site),
            Call::Order => self.order(),
            Call::List => self.list(),
            Call::Cull => self.cull(),
            Call::Erasable => self.erasable(),
            Call::Erase(set) => self.erase(&set),
            Call::Deepen(child) => self.deepen(child),
            Call::Seed(child) => self.seed(child),
            Call::Swap => self.swap(),
            Call::Save => self.save(),
            Call::Restore => self.restore(),
            Call::Rubbish => self.rubbish(),
            Call::Using(stack, path) => self.using(stack, path),
            Call::OfNode(node, asked) => self.of_node(node, asked),
            Call::Set(node, setting) => self.set(node, setting),
        }
    }

    fn new_graphs(&mut self) -> Result<String, Refusal> {
        *self = Self::default();
        done()
    }

    fn init(&mut self, stack: u32, layer: u32, path: &[u8]) -> Result<String, Refusal> {
        narrowing::no_node_0(self.current.graph())?;
        let path = narrowing::path(path)?;
        Ok(number(self.current.init_root(stack, layer, path)))
    }

    fn add(&mut self, record: &Record) -> Result<String, Refusal> {
        let (parent, desc) = narrowing::add(self.current.graph(), record)?;
        Ok(number(self.current.add_child(parent, desc)))
    }

    fn read(&mut self, bytes: &[u8]) -> Result<String, Refusal> {
        self.current = graph_of(bytes)?;
        Ok(self.current.graph().len().to_string())
    }

    fn chains(&self) -> String {
        let nodes = self.current.graph().nodes();
        joined(nodes.map(|node| joined(node.children().map(number), ",")), ";")
    }

    fn marks(&self) -> String {
        let marks = self.current.marks();
        let marks = [marks.ordered, marks.finalized, marks.shallow];
        joined(marks.into_iter().map(bit), " ")
    }

    fn compare(&self, a: u32, b: u32) -> Result<String, Refusal> {
        let graph = self.current.graph();
        let (a, b) = (narrowing::node(graph, a)?, narrowing::node(graph, b)?);
        Ok(format!("{:?}", graph.compare_node_strength(a, b)))
    }

    fn sibling(&self, a: u32, b: u32) -> Result<String, Refusal> {
        let graph = self.current.graph();
        let (a, b) = narrowing::siblings(graph, a, b)?;
        Ok(format!("{:?}", graph.compare_sibling_node_strength(a, b)))
    }

    fn compares(&self) -> Result<String, Refusal> {
        let graph = self.current.graph();
        narrowing::node_0(graph)?;
        let letter = |a, b| ordering_letter(graph.compare_node_strength(a, b));
        let row = |a: NodeId| graph.nodes().map(|b| letter(a, b.id())).collect();
        Ok(joined(graph.nodes().map(|a| row(a.id())), " "))
    }

    fn test_pair(
        &self,
        a: u32,
        b: u32,
        test: impl Fn(&PrimIndexGraph, NodeId, NodeId) -> bool,
    ) -> Result<String, Refusal> {
        let graph = self.current.graph();
        let (a, b) = (narrowing::node(graph, a)?, narrowing::node(graph, b)?);
        Ok(bit(test(graph, a, b)))
    }

    fn order(&mut self) -> Result<String, Refusal> {
        narrowing::order(self.current.graph(), self.current.is_finalized())?;
        self.current.finalize_strength_order();
        done()
    }

    fn list(&self) -> Result<String, Refusal> {
        let graph = self.current.graph();
        narrowing::list(graph, self.current.is_ordered())?;
        Ok(joined(graph.strength_order().iter().copied().map(number), " "))
    }

    fn cull(&mut self) -> Result<String, Refusal> {
        narrowing::node_0(self.current.graph())?;
        self.current.cull();
        done()
    }

    fn erasable(&self) -> Result<String, Refusal> {
        let graph = self.current.graph();
        narrowing::node_0(graph)?;
        Ok(graph.erasable().into_iter().map(bit).collect())
    }

    fn erase(&mut self, set: &[u8]) -> Result<String, Refusal> {
        let goes = narrowing::erase(self.current.graph(), set)?;
        Ok(self.current.erase(&goes).to_string())
    }

    fn deepen(&mut self, child: &[u8]) -> Result<String, Refusal> {
        let child = narrowing::deepen(self.current.graph(), child)?;
        self.current.deepen(&child);
        done()
    }

    fn seed(&mut self, child: &[u8]) -> Result<String, Refusal> {
        let child = narrowing::deepen(self.current.graph(), child)?;
        self.other = self.current.seed_child(&child);
        self.swap()
    }

    fn swap(&mut self) -> Result<String, Refusal> {
        mem::swap(&mut self.current, &mut self.other);
        done()
    }

    /// Both graphs then hold the Rust's shared half, as after seeding, until one of them changes it.
    fn save(&mut self) -> Result<String, Refusal> {
        self.saved = self.current.clone();
        done()
    }

    fn restore(&mut self) -> Result<String, Refusal> {
        self.current = self.saved.clone();
        done()
    }

    fn rubbish(&mut self) -> Result<String, Refusal> {
        self.current = Judge::rubbish();
        done()
    }

    fn using(&self, stack: u32, path: &[u8]) -> Result<String, Refusal> {
        let graph = self.current.graph();
        narrowing::node_0(graph)?;
        let path = narrowing::path(path)?;
        Ok(number_or_dash(graph.node_using_site(LayerStackId(stack), &path)))
    }

    fn of_node(&self, node: u32, asked: OfNode) -> Result<String, Refusal> {
        let graph = self.current.graph();
        let node = narrowing::node(graph, node)?;
        Ok(match asked {
            OfNode::Propagated => bit(graph.is_propagated_specializes(node)),
            OfNode::Copy => number_or_dash(graph.get_propagated_specializes_node(node)),
            OfNode::Class => class_hierarchy(graph, node),
            OfNode::Below => graph.depth_below_introduction(node).to_string(),
            OfNode::Intro => text(&graph.path_at_introduction(node)),
            OfNode::Due => bit(graph.is_due_to_ancestor(node)),
            OfNode::Introduced => text(&graph.intro_path(node)),
        })
    }

    fn set(&mut self, node: u32, setting: Setting) -> Result<String, Refusal> {
        let node = narrowing::set(self.current.graph(), node, &setting)?;
        self.current.set(node, setting);
        done()
    }
}

/// The graph of a snapshot. The records are added to a fresh graph in their order, so child lists come back in node
/// order.
pub fn graph_of(bytes: &[u8]) -> Result<Judge, Refusal> {
    let mut filled = Judge::default();
    for record in snapshot::decode(bytes)? {
        if filled.graph().is_empty() {
            filled.init_from(narrowing::record_0(&record)?);
        } else {
            let (parent, desc) = narrowing::later_record(filled.graph(), &record)?;
            filled.add_child(parent, desc);
        }
    }
    Ok(filled)
}

/// The answer of a call that has no value.
fn done() -> Result<String, Refusal> {
    Ok("ok".into())
}

/// The prim count, the parent and the last name.
fn path_parts(path: &[u8]) -> Result<String, Refusal> {
    let path = narrowing::path(path)?;
    let parent = path.parent().map_or("-".into(), |parent| text(&parent));
    let name = path.name().unwrap_or("-");
    Ok(format!("{} {parent} {name}", path.prim_element_count()))
}

fn join_path(path: &[u8], child: &[u8]) -> Result<String, Refusal> {
    let path = narrowing::path(path)?;
    let child = narrowing::child_path(child)?;
    Ok(text(&narrowing::append(&path, &child)?))
}

fn text(path: &Path) -> String {
    path.as_str().into()
}

fn number(node: NodeId) -> String {
    node.0.to_string()
}

fn number_or_dash(node: Option<NodeId>) -> String {
    node.map_or("-".into(), number)
}

/// The node that the class hierarchy of `node` begins at, and its topmost class.
fn class_hierarchy(graph: &PrimIndexGraph, node: NodeId) -> String {
    let (instance, class) = graph.starting_node_of_class_hierarchy(node);
    format!("{} {}", number(instance), number_or_dash(class.valid()))
}

fn bit(set: bool) -> String {
    u8::from(set).to_string()
}

fn ordering_letter(ordering: Ordering) -> char {
    match ordering {
        Ordering::Less => 'L',
        Ordering::Equal => 'E',
        Ordering::Greater => 'G',
    }
}

/// A node's fields, in the order of a snapshot.
fn record_text(record: &Record) -> String {
    let or_dash = |number: Option<u32>| number.map_or("-".into(), |number| number.to_string());
    let Record { arc, flags, stack, layer, sibling, restriction, spec_from, has_specs, .. } = record;
    let (parent, origin, depth) =
        (or_dash(record.parent), or_dash(record.origin), or_dash(record.depth.map(u32::from)));
    let path = String::from_utf8_lossy(record.path);
    format!(
        "{arc},{flags},{stack},{layer},{parent},{origin},{depth},{sibling},{restriction},{spec_from},{has_specs},{path}"
    )
}

fn joined(words: impl Iterator<Item = String>, between: &str) -> String {
    words.collect::<Vec<_>>().join(between)
}

pub fn hex(bytes: &[u8]) -> String {
    let digits = bytes.iter().flat_map(|byte| [byte >> 4, byte & 15]);
    digits.map(|digit| char::from(b"0123456789abcdef"[usize::from(digit)])).collect()
}
