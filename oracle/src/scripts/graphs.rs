//! Lines on random graphs. A graph is grown so that the rarer rules meet: many Specialize arcs, sites that coincide,
//! origins other than the parent, copies below the local root, depths on both sides of the parent's. Then all other
//! calls are made in a random sequence, now and then with a bad argument.

mod damage;
mod growth;
mod settings;
mod style;

use std::io::{self, Write};

use crate::calls::{Answer, Calls, hex};
use crate::record::NO_NODE;
use crate::sdf::Path;
use crate::snapshot;
use plain::random::Random;
pub use style::Style;
use style::child_of;

pub fn graphs(seed: u64, count: usize, out: &mut dyn Write) -> io::Result<()> {
    let mut random = Random::new(seed);
    let mut calls = Calls::default();
    for _ in 0..count {
        let style = Style::any(&mut random);
        let mut script = Script { random: &mut random, calls: &mut calls, out, style };
        script.write()?;
    }
    Ok(())
}

pub struct Script<'a> {
    pub random: &'a mut Random,
    /// Makes the calls as they are written, so that a later line can build on their answers.
    pub calls: &'a mut Calls,
    pub out: &'a mut dyn Write,
    pub style: Style,
}

impl Script<'_> {
    fn write(&mut self) -> io::Result<()> {
        self.say("new")?;
        self.start()?;
        for at in 0..self.style.nodes {
            let local_root = at == 0 && !self.random.one_in(self.style.rootless);
            if local_root { self.add_local_root()? } else { self.add()? }
        }
        for _ in 0..self.random.between(5, 40) {
            self.step()?;
        }
        self.look_at_everything()
    }

    /// Writes a line, makes its call and hands its answer back.
    pub fn say(&mut self, line: &str) -> io::Result<Answer> {
        self.out.write_all(line.as_bytes())?;
        self.out.write_all(b"\n")?;
        Ok(self.calls.answer(line.as_bytes()))
    }

    pub fn say_all(&mut self, lines: &[&str]) -> io::Result<()> {
        lines.iter().try_for_each(|line| self.say(line).map(drop))
    }

    /// Writes a line and hands back the text of its answer, if it was accepted.
    pub fn ask(&mut self, line: &str) -> io::Result<Option<String>> {
        Ok(match self.say(line)? {
            Answer::Accepted(text) => Some(text),
            _ => None,
        })
    }

    pub fn count(&self) -> usize {
        self.calls.current().graph().len()
    }

    fn start(&mut self) -> io::Result<()> {
        if self.random.one_in(20) {
            let early = self.random.pick(&["order", "list", "cull", "erasable", "erase 0", "deepen /A", "seed /A"]);
            self.say(early)?;
        }
        self.init()
    }

    pub fn init(&mut self) -> io::Result<()> {
        let (stack, layer, path) = (self.stack(), self.random.below(3), self.path());
        self.say(&format!("init {stack} {layer} {path}"))?;
        Ok(())
    }

    fn stack(&mut self) -> u32 {
        self.random.below(self.style.stacks as usize) as u32
    }

    fn path(&mut self) -> String {
        let at = self.random.below(self.style.paths.len());
        self.style.paths[at].clone()
    }

    /// A node that there is; in an empty graph the number 0.
    fn any_node(&mut self) -> u32 {
        self.random.below(self.count()) as u32
    }

    /// One of the last three nodes.
    fn recent_node(&mut self) -> u32 {
        let back = self.random.between(1, 3);
        self.count().saturating_sub(back) as u32
    }

    /// One call, or a few that belong together.
    fn step(&mut self) -> io::Result<()> {
        match self.random.below(24) {
            0 | 1 if self.random.one_in(8) => self.add_by_no_node(),
            0 | 1 => self.add(),
            2 | 3 => self.compare(),
            4..=6 => self.say_all(&["order", "marks", "list", "chains"]),
            7 => self.say_all(&["cull", "erasable", "marks"]),
            8..=10 => self.erase(),
            11 | 12 => self.deepen(),
            13 | 14 => self.snapshot(),
            15..=17 => self.ask_about_node(),
            18 => self.swap(),
            19..=21 => self.set(),
            22 => self.ask_about_introduction(),
            _ => self.nuisance(),
        }
    }

    /// Now and then one past the last node.
    fn node_number(&mut self) -> String {
        let number = if self.random.one_in(25) { self.count() as u32 } else { self.any_node() };
        if self.random.one_in(200) { NO_NODE.to_string() } else { number.to_string() }
    }

    fn compare(&mut self) -> io::Result<()> {
        for _ in 0..3 {
            let (a, b) = (self.node_number(), self.node_number());
            self.say(&format!("compare {a} {b}"))?;
            self.say(&format!("sibling {a} {b}"))?;
        }
        Ok(())
    }

    /// Erases the erasable set, that set with a bit turned over, or any set.
    fn erase(&mut self) -> io::Result<()> {
        let mut set = self.ask("erasable")?.unwrap_or_default().into_bytes();
        let at = self.random.below(set.len());
        match self.random.below(8) {
            0 => set.push(b'1'),
            1 => set.truncate(at),
            2 => set.iter_mut().for_each(|bit| *bit = self.random.pick(b"0001")),
            3..=5 => set.iter_mut().skip(at).take(1).for_each(|bit| *bit ^= 1),
            _ => (),
        }
        self.say(&format!("erase {}", String::from_utf8_lossy(&set)))?;
        self.say_all(&["marks", "list", "chains", "dump"])
    }

    /// Deepens or seeds.
    fn deepen(&mut self) -> io::Result<()> {
        let child = self.child();
        let word = self.random.pick(&["deepen", "deepen", "seed"]);
        self.say(&format!("{word} {child}"))?;
        self.say_all(&["marks", "list", "dump"])
    }

    /// A path to deepen by: mostly a child of some node's path, seldom one that ends in no name or in a long one.
    pub fn child(&mut self) -> String {
        let mut child = self.path();
        if !self.random.one_in(8) {
            child = child_of(&child, self.random.pick(&["k", "Child", "_0"]));
        }
        if self.random.one_in(25) {
            child = self.random.pick(&["/", "//", "/A{v=}", "/A/", "A"]).into();
        }
        if self.random.one_in(25) {
            child = format!("/{}", "n".repeat(self.random.between(240, 255)));
        }
        child
    }

    fn snapshot(&mut self) -> io::Result<()> {
        if self.random.one_in(60) { self.crowded_snapshot() } else { self.read_back() }
    }

    /// Writes a snapshot and reads it back, whole or damaged.
    pub fn read_back(&mut self) -> io::Result<()> {
        self.say("write")?;
        let bytes = self.copy();
        self.say(&format!("read {}", hex(&bytes)))?;
        self.say_all(&["marks", "dump", "chains"])
    }

    /// The current graph's snapshot: as it is, with one record changed, or with one byte changed.
    pub fn copy(&mut self) -> Vec<u8> {
        let mut records = self.calls.current().records();
        if self.random.one_in(2) {
            damage::change_record(self.random, &mut records);
        }
        let mut bytes = snapshot::encode(&records);
        if self.random.one_in(3) {
            damage::change_bytes(self.random, &mut bytes);
        }
        bytes
    }

    /// Reads a snapshot filled up to a limit or just past it, then again the one that it was made from.
    fn crowded_snapshot(&mut self) -> io::Result<()> {
        let path = format!("/{}", "n".repeat(Path::MAX_BYTES - 1));
        let mut records = self.calls.current().records();
        let small = hex(&snapshot::encode(&records));
        if self.random.one_in(2) {
            damage::fill_nodes(self.random, &mut records);
        } else {
            damage::fill_path_bytes(self.random, &mut records, path.as_bytes());
        }
        let crowded = hex(&snapshot::encode(&records));
        self.say(&format!("read {crowded}"))?;
        self.say("marks")?;
        self.say(&format!("read {small}"))?;
        Ok(())
    }

    pub fn ask_about_node(&mut self) -> io::Result<()> {
        for _ in 0..2 {
            let node = self.node_number();
            self.say(&format!("below {node}"))?;
            self.say(&format!("intro {node}"))?;
        }
        let stack = self.stack();
        let at = self.any_node() as usize;
        let held = self.calls.current().graph().nodes().nth(at);
        let path = held.map(|node| node.path().as_str().to_string());
        let path = if self.random.one_in(4) { self.path() } else { path.unwrap_or("/".into()) };
        self.say(&format!("using {stack} {path}"))?;
        Ok(())
    }

    fn set(&mut self) -> io::Result<()> {
        let line = self.setting();
        self.say_all(&[&line, "marks", "dump", "erasable"])
    }

    /// Works on the other graph for a while; an empty one is mostly left again at once.
    fn swap(&mut self) -> io::Result<()> {
        self.say("swap")?;
        self.say("marks")?;
        if self.count() == 0 && !self.random.one_in(6) {
            self.say("swap")?;
        }
        Ok(())
    }

    fn nuisance(&mut self) -> io::Result<()> {
        const LINES: [&str; 16] = [
            "", " ", "init 0 0 /A", "init 0 0 //", "add", "read 0", "read 0g", "read 00", "read 00000003010000ff",
            "read 00000003020000", "compare 0", "erase 012", "erase ", "order now", "using 0 //", "list ",
        ];
        let line = self.random.pick(&LINES);
        self.say(line)?;
        Ok(())
    }

    fn look_at_everything(&mut self) -> io::Result<()> {
        self.say_all(&["marks", "dump", "chains", "erasable", "order", "list", "write"])?;
        if self.count() <= 120 {
            self.say("compares")?;
        }
        Ok(())
    }
}
