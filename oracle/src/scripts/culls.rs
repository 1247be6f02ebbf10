//! Lines that cull graphs and erase from them: each is shown, culled, shown, and what is erasable is erased; now and
//! then another set is tried before. Then it is ordered, which changes nothing in one that was ordered before. Now and
//! then it is ordered afresh from its snapshot, or gets a node more.

use std::io::{self, Write};

use plain::layout::MAX_NODES;
use plain::random::Random;
use plain::samples::culls::{full, small};
use plain::samples::graphs::Node;

use super::erase_sets::another_set;
use super::orders::{add_all, read};
use crate::calls::{Answer, Calls};

/// What may change but the records.
const LISTS: [&str; 3] = ["chains", "marks", "list"];

/// Graphs of up to 20 nodes; CULLED stands on nodes of every second one.
pub fn culls(seed: u64, count: usize, out: &mut dyn Write) -> io::Result<()> {
    let mut script = Script { random: Random::new(seed), calls: Calls::default(), records: "dump", out };
    for at in 0..count {
        if script.random.one_in(50) {
            script.ask_an_empty_graph()?;
        }
        let nodes = small(&mut script.random, at % 2 == 0);
        let read = at % 2 == 0 || script.random.one_in(2);
        script.make(&nodes, read)?;
        script.cull_and_erase()?;
    }
    Ok(())
}

/// So many graphs of up to 200 nodes, and of each 25 one of 1,024. Records are shown as snapshots.
pub fn culls_large(seed: u64, count: usize, out: &mut dyn Write) -> io::Result<()> {
    let mut script = Script { random: Random::new(seed), calls: Calls::default(), records: "write", out };
    for at in 0..count {
        let size = script.random.between(21, 200);
        script.read_and_erase(size, at % 2 == 0)?;
        if at % 25 == 24 {
            script.read_and_erase(MAX_NODES, at % 2 == 0)?;
        }
    }
    Ok(())
}

struct Script<'a> {
    random: Random,
    /// Makes the calls as they are written, so that a later line can build on their answers.
    calls: Calls,
    /// The line that shows the records.
    records: &'static str,
    out: &'a mut dyn Write,
}

impl Script<'_> {
    /// Writes a line, makes its call and hands its answer back; nothing where it was refused.
    fn say(&mut self, line: &str) -> io::Result<Option<String>> {
        writeln!(self.out, "{line}")?;
        Ok(match self.calls.answer(line.as_bytes()) {
            Answer::Accepted(text) => Some(text),
            _ => None,
        })
    }

    fn say_all(&mut self, lines: &[&str]) -> io::Result<()> {
        lines.iter().try_for_each(|line| self.say(line).map(drop))
    }

    fn ask_an_empty_graph(&mut self) -> io::Result<()> {
        let line = self.random.pick(&["cull", "erasable", "erase 0", "erase 2"]);
        self.say_all(&["new", line])
    }

    /// Reads the nodes or adds them one by one, and orders every second graph, if it has an order.
    fn make(&mut self, nodes: &[Node], by_reading: bool) -> io::Result<()> {
        let mut lines = Vec::new();
        if by_reading {
            read(nodes, &mut lines)?
        } else {
            add_all(nodes, &mut lines)?
        }
        String::from_utf8_lossy(&lines).lines().try_for_each(|line| self.say(line).map(drop))?;
        if self.random.one_in(2) { self.say("order").map(drop) } else { Ok(()) }
    }

    fn read_and_erase(&mut self, size: usize, culled: bool) -> io::Result<()> {
        let nodes = full(&mut self.random, size, culled);
        self.make(&nodes, true)?;
        self.cull_and_erase()
    }

    fn cull_and_erase(&mut self) -> io::Result<()> {
        self.show()?;
        self.say_all(&["cull", self.records])?;
        let mut erasable = self.say("erasable")?.unwrap_or_default();
        if self.random.one_in(3) {
            let graph = self.calls.current().graph();
            let set = another_set(&mut self.random, graph, erasable.as_bytes());
            self.erase(&set)?;
            erasable = self.say("erasable")?.unwrap_or_default();
        }
        self.erase(erasable.as_bytes())?;
        self.say("order")?;
        self.show()?;
        match self.random.below(8) {
            0 | 1 => self.order_afresh(),
            2 => self.add_one(),
            _ => Ok(()),
        }
    }

    fn show(&mut self) -> io::Result<()> {
        self.say(self.records)?;
        self.say_all(&LISTS)
    }

    fn erase(&mut self, set: &[u8]) -> io::Result<()> {
        self.say(&format!("erase {}", String::from_utf8_lossy(set)))?;
        self.show()
    }

    /// The graph read back, which is then not ordered, and ordered: also a finalized one has the order that it had.
    fn order_afresh(&mut self) -> io::Result<()> {
        let written = self.say("write")?.unwrap_or_default();
        self.say(&format!("read {written}"))?;
        self.say_all(&["order", "list", "chains"])
    }

    /// A node more, which comes last in its parent's chain.
    fn add_one(&mut self) -> io::Result<()> {
        let parent = self.random.below(self.calls.current().graph().len());
        self.say_all(&[&format!("add {parent} 4 0 0 0 - 0 0 0 0 1 /A"), "chains", "list"])
    }
}
