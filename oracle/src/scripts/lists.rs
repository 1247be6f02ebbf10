//! Lists of the calls that write graphs, refused ones among them: 5 to 30 calls on two graphs, and after each call the
//! current graph is shown, so that what demand 3 says of every such list can be seen in the answers. What it says of
//! erasing and of deepening is tried after each call, on the graph as it stands, which is then restored. Most lists end
//! with erasing what is erasable, and ordering what is left, or with deepening. An empty line comes before each list.

use std::io::{self, Write};

use plain::random::Random;
use plain::samples::graphs::{self, Node};
use plain::samples::{culls, orders};

use super::erase_sets::another_set;
use super::graphs::{Script, Style};
use crate::calls::{Answer, Calls, hex};

/// All that a graph shows.
const SHOWN: &str = "marks\nlist\ncompares\ndump\nchains\n";

/// What deepening leaves as it is in a finalized graph.
const UNDEEPENED: &str = "marks\nlist\ncompares\nchains\n";

/// Names that fit behind nearly every path.
const CHILDREN: [&str; 3] = ["/k", "/M/Child", "/A{v=}_0"];

/// A graph has no more nodes than this.
const NODES: usize = 12;

/// A list has no more calls than this.
const CALLS: usize = 30;

pub fn lists(seed: u64, count: usize, out: &mut dyn Write) -> io::Result<()> {
    let mut random = Random::new(seed);
    let mut calls = Calls::default();
    for _ in 0..count {
        let style = Style::any(&mut random);
        let script = Script { random: &mut random, calls: &mut calls, out, style };
        List { script }.write()?;
    }
    Ok(())
}

struct List<'a> {
    script: Script<'a>,
}

impl List<'_> {
    /// One list in four goes on with the graphs that the one before left. Each has a call that sets something of a node.
    fn write(&mut self) -> io::Result<()> {
        self.script.say("")?;
        if !self.one_in(4) {
            self.call("new")?;
        }
        match self.script.random.below(4) {
            0 | 1 => {
                self.steps(CALLS - 6)?;
                self.end_by_erasing()
            }
            2 => {
                self.steps(CALLS - 3)?;
                self.end_by_deepening()
            }
            _ => self.steps(CALLS),
        }
    }

    /// Five calls that write, or up to so many.
    fn steps(&mut self, most: usize) -> io::Result<()> {
        let steps = self.script.random.between(5, most);
        let set_at = self.script.random.between(1, steps - 1);
        for at in 0..steps {
            self.go_elsewhere()?;
            if at == set_at { self.set()? } else { self.step()? }
        }
        Ok(())
    }

    fn one_in(&mut self, times: usize) -> bool {
        self.script.random.one_in(times)
    }

    /// Makes a call and shows the graph.
    fn call(&mut self, line: &str) -> io::Result<()> {
        self.script.say(line)?;
        self.show()
    }

    /// The graph and its erasable set; what it would be without that set and, where it is finalized, deepened.
    fn show(&mut self) -> io::Result<()> {
        write!(self.script.out, "{SHOWN}erasable\n")?;
        let set = self.erasable();
        if set.contains(&b'1') {
            self.try_out(&format!("erase {}", String::from_utf8_lossy(&set)), SHOWN)?;
        }
        let current = self.script.calls.current();
        if current.is_ordered() && current.is_finalized() {
            let child = self.script.random.pick(&CHILDREN);
            self.try_out(&format!("deepen {child}"), UNDEEPENED)?;
        }
        if self.one_in(10) { self.script.ask_about_introduction() } else { Ok(()) }
    }

    /// The judge is not asked: these lines leave the graph as it was.
    fn try_out(&mut self, call: &str, shown: &str) -> io::Result<()> {
        write!(self.script.out, "save\n{call}\n{shown}restore\ndump\n")
    }

    /// Now and then works on the other graph, or on none.
    fn go_elsewhere(&mut self) -> io::Result<()> {
        match self.script.random.below(80) {
            0 => self.call("new"),
            1..=8 => self.call("swap"),
            _ => Ok(()),
        }
    }

    /// One call that writes.
    fn step(&mut self) -> io::Result<()> {
        let wanted = self.script.style.nodes.min(NODES);
        match self.script.count() {
            0 if !self.one_in(10) => self.begin(),
            nodes if nodes > 0 && nodes < wanted && self.one_in(2) => self.add(),
            _ => self.change(),
        }
    }

    fn begin(&mut self) -> io::Result<()> {
        if self.one_in(3) { self.init() } else { self.read_sample() }
    }

    fn init(&mut self) -> io::Result<()> {
        self.script.init()?;
        self.show()
    }

    fn read_sample(&mut self) -> io::Result<()> {
        let nodes = sample(self.script.random);
        self.read(&graphs::snapshot(&nodes))
    }

    /// The local root first, mostly.
    fn add(&mut self) -> io::Result<()> {
        let rootless = self.script.style.rootless;
        if self.script.count() == 1 && !self.one_in(rootless) {
            self.script.add_local_root()?
        } else if self.one_in(60) {
            self.script.add_by_no_node()?
        } else {
            self.script.add()?
        }
        self.show()
    }

    fn change(&mut self) -> io::Result<()> {
        match self.script.random.below(23) {
            0..=4 => self.call("order"),
            5..=7 => self.call("cull"),
            8..=10 => self.erase_the_erasable(),
            11 | 12 => self.erase_another(),
            13 | 14 => self.deepen("deepen"),
            15 | 16 => self.deepen("seed"),
            17 => self.read_copy(),
            18 => self.read_sample(),
            19..=21 => self.set(),
            _ if self.script.count() == 0 => self.add(),
            _ => self.init(),
        }
    }

    /// A digit for each node, and one for no node. No line is written.
    fn erasable(&mut self) -> Vec<u8> {
        match self.script.calls.answer(b"erasable") {
            Answer::Accepted(set) => set.into_bytes(),
            _ => b"0".to_vec(),
        }
    }

    fn erase(&mut self, set: &[u8]) -> io::Result<()> {
        self.call(&format!("erase {}", String::from_utf8_lossy(set)))
    }

    fn erase_the_erasable(&mut self) -> io::Result<()> {
        let set = self.erasable();
        self.erase(&set)
    }

    fn erase_another(&mut self) -> io::Result<()> {
        let erasable = self.erasable();
        if self.script.count() == 0 {
            return self.erase(&erasable);
        }
        let set = another_set(self.script.random, self.script.calls.current().graph(), &erasable);
        self.erase(&set)
    }

    fn set(&mut self) -> io::Result<()> {
        let line = self.script.setting();
        self.call(&line)
    }

    fn deepen(&mut self, word: &str) -> io::Result<()> {
        let child = self.script.child();
        self.call(&format!("{word} {child}"))
    }

    fn read(&mut self, bytes: &[u8]) -> io::Result<()> {
        self.call(&format!("read {}", hex(bytes)))
    }

    fn read_copy(&mut self) -> io::Result<()> {
        let bytes = self.script.copy();
        self.read(&bytes)
    }

    /// What is erasable goes, mostly from an ordered graph. Ordering then changes nothing, and neither does ordering
    /// afresh from the snapshot, which also a finalized graph is.
    fn end_by_erasing(&mut self) -> io::Result<()> {
        if !self.one_in(5) {
            self.call("order")?;
        }
        if !self.one_in(5) {
            self.call("cull")?;
        }
        self.erase_the_erasable()?;
        self.call("order")?;
        let written = self.script.ask("write")?.unwrap_or_default();
        self.call(&format!("read {written}"))?;
        self.call("order")
    }

    /// A graph that is finalized, unless it is shallow, is deepened.
    fn end_by_deepening(&mut self) -> io::Result<()> {
        self.call("order")?;
        let word = self.script.random.pick(&["deepen", "seed"]);
        self.deepen(word)?;
        self.call("order")
    }
}

/// Up to 12 nodes: of any fields, such as have no order, or, mostly, such as are culled.
fn sample(random: &mut Random) -> Vec<Node> {
    let (size, culled) = (random.between(1, NODES), random.one_in(2));
    match random.below(8) {
        0 => graphs::nodes(random, size),
        1 => ordered_or_not(random),
        _ => culls::full(random, size, culled),
    }
}

fn ordered_or_not(random: &mut Random) -> Vec<Node> {
    loop {
        let nodes = orders::small(random);
        if nodes.len() <= NODES {
            return nodes;
        }
    }
}
