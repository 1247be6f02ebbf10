//! The `add` lines of a script.

use std::io;

use super::Script;
use crate::flags::HAS_SPECIALIZES;
use crate::pcp::prim_graph::ArcType::{self, Root, Specialize};
use crate::record::NO_NODE;

impl Script<'_> {
    pub fn add_local_root(&mut self) -> io::Result<()> {
        let (parent, path) = (self.random.pick(&["-", "0", "0", "0"]), self.path());
        let (flags, depth) = (self.random.pick(&[0, 0, 0, 1, 9]), self.random.pick(&["-", "-", "0", "1"]));
        self.say(&format!("add {parent} {} {flags} 0 0 - {depth} 0 0 0 1 {path}", Root as u8))?;
        Ok(())
    }

    /// One `add` line in thirty is spoilt.
    pub fn add(&mut self) -> io::Result<()> {
        let copied = self.random.one_in(self.style.copies);
        let node = if copied { self.copied_node() } else { self.fresh_node() };
        let mut line = node.line();
        if self.random.one_in(30) {
            line = self.spoil(&line);
        }
        self.say(&line)?;
        Ok(())
    }

    /// An `add` line whose parent or origin is the number that no node has.
    pub fn add_by_no_node(&mut self) -> io::Result<()> {
        let mut node = self.fresh_node();
        let link = if self.random.one_in(2) { &mut node.parent } else { &mut node.origin };
        *link = Some(NO_NODE);
        self.say(&node.line())?;
        Ok(())
    }

    fn fresh_node(&mut self) -> NewNode {
        let arc = self.random.pick(self.style.arcs);
        let parent = self.parent();
        NewNode {
            parent,
            arc,
            flags: self.flags(arc),
            stack: self.stack(),
            origin: self.origin(),
            depth: self.depth(parent),
            sibling: self.random.pick(&[0, 0, 0, 1, 2, 65_535]),
            restriction: self.random.pick(&[0, 0, 0, 1, 300]),
            spec_from: self.random.pick(&[0, 0, 0, 1, 300]),
            has_specs: self.random.below(2),
            path: self.path(),
        }
    }

    /// A copy of a node below the local root, as specializes are copied there: propagated if its site is the same too,
    /// implied otherwise. It is often the copy of a copy.
    fn copied_node(&mut self) -> NewNode {
        let origin = if self.random.one_in(2) { self.any_node() } else { self.recent_node() };
        let local_root = self.calls.current().graph().local_root().valid();
        let mut node = self.fresh_node();
        node.parent = local_root.map(|root| root.0);
        node.origin = Some(origin);
        node.arc = Specialize;
        node.flags = self.flags(Specialize);
        if let Some(copied) = self.calls.current().records().get(origin as usize) {
            node.depth = copied.depth;
            node.sibling = copied.sibling;
            if self.random.below(3) > 0 {
                node.stack = copied.stack;
                node.path = String::from_utf8_lossy(copied.path).into();
            }
        }
        node
    }

    /// Mostly a node of few, so that child lists grow long.
    fn parent(&mut self) -> Option<u32> {
        match self.random.below(10) {
            0 => None,
            1 | 2 => Some(0),
            3..=5 => Some(1.min(self.any_node())),
            6 => Some(self.any_node().min(4)),
            7 => Some(self.recent_node()),
            _ => Some(self.any_node()),
        }
    }

    fn origin(&mut self) -> Option<u32> {
        match self.random.below(4) {
            0 | 1 => None,
            2 => Some(self.any_node().min(5)),
            _ => Some(self.any_node()),
        }
    }

    fn flags(&mut self, arc: ArcType) -> u8 {
        let specialize =
            if arc == Specialize { !self.random.one_in(self.style.unflagged) } else { self.random.one_in(12) };
        let inert = self.random.one_in(6) as u8;
        let rare = self.random.pick(&[0, 0, 0, 0, 0, 0, 4, 16, 32, 64, 128, 244]);
        inert | rare | if specialize { HAS_SPECIALIZES } else { 0 }
    }

    /// Missing, or seldom deeper than the parent's path.
    fn depth(&mut self, parent: Option<u32>) -> Option<u16> {
        let parent = self.calls.current().graph().nodes().nth(parent.unwrap_or(0) as usize);
        let deepest = parent.map_or(0, |parent| parent.path().prim_element_count() as u16);
        if self.random.one_in(self.style.beyond) {
            return Some(self.random.pick(&[deepest + 1, deepest + 2, 127, 256, 65_535]));
        }
        if self.random.one_in(3) { Some(self.random.between(0, deepest.into()) as u16) } else { None }
    }

    /// The line with one word replaced by one that seldom fits.
    fn spoil(&mut self, line: &str) -> String {
        const WORDS: [&str; 20] = [
            "-", "0", "2", "3", "6", "7", "255", "256", "1023", "65535", "65536", "4294967294", "4294967295",
            "4294967296", "x", "//", "/A{v=.}", "/1", "", "+1",
        ];
        let mut words: Vec<&str> = line.split(' ').collect();
        let at = self.random.between(1, words.len() - 1);
        words[at] = self.random.pick(&WORDS);
        words.join(" ")
    }
}

/// The words of an `add` line; layers are of no interest.
struct NewNode {
    parent: Option<u32>,
    arc: ArcType,
    flags: u8,
    stack: u32,
    origin: Option<u32>,
    depth: Option<u16>,
    sibling: u16,
    restriction: u16,
    spec_from: u16,
    has_specs: usize,
    path: String,
}

impl NewNode {
    fn line(&self) -> String {
        let or_dash = |number: Option<u32>| number.map_or("-".into(), |number| number.to_string());
        let (parent, origin, depth) = (or_dash(self.parent), or_dash(self.origin), or_dash(self.depth.map(u32::from)));
        let Self { arc, flags, stack, sibling, restriction, spec_from, has_specs, path, .. } = self;
        let arc = *arc as u8;
        let site_and_links = format!("{parent} {arc} {flags} {stack} 7 {origin} {depth}");
        format!("add {site_and_links} {sibling} {restriction} {spec_from} {has_specs} {path}")
    }
}
