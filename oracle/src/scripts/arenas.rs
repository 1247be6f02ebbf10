//! Lines that make graphs and look at them, and nothing else: `new`, `init`, `add`, `read`, `write`, `dump`, `chains`,
//! `marks`, `using`, `below`, `intro` and `swap`. Graphs are grown as in `graphs.rs`, up to 40 nodes; a few scripts go
//! to a limit and past it.

use std::io::{self, Write};

use plain::random::Random;
use plain::samples::graphs as samples;

use super::graphs::{Script, Style};
use crate::calls::{Calls, hex};
use crate::narrowing::{MAX_NODES, MAX_PATH_BYTES};
use crate::sdf::Path;

/// A script grows its graph to so many nodes, unless it goes to a limit.
const NODES: usize = 40;

pub fn arenas(seed: u64, count: usize, out: &mut dyn Write) -> io::Result<()> {
    let mut random = Random::new(seed);
    let mut calls = Calls::default();
    for at in 0..count {
        let style = Style::any(&mut random);
        let mut script = Script { random: &mut random, calls: &mut calls, out, style };
        match at % 1_000 {
            499 => script.reach_the_last_node()?,
            250 | 750 => script.reach_the_last_byte()?,
            _ => script.make_and_look()?,
        }
    }
    Ok(())
}

impl Script<'_> {
    fn make_and_look(&mut self) -> io::Result<()> {
        self.say("new")?;
        if self.random.one_in(10) {
            self.ask_too_early()?;
        }
        for _ in 0..self.random.between(32, 52) {
            if self.count() == 0 && self.random.below(3) > 0 {
                self.begin()?;
            } else if self.count() < NODES && self.random.below(3) > 0 {
                self.add()?;
            } else {
                self.look_or_leave()?;
            }
        }
        self.say_all(&["marks", "dump", "chains", "write"])
    }

    /// A call that needs a node 0.
    fn ask_too_early(&mut self) -> io::Result<()> {
        let early =
            ["below 0", "intro 0", "using 0 /A", "add - 4 0 0 0 - - 0 0 0 1 /A", "add 9 9 2 0 0 9 - 0 0 0 2 //"];
        let line = self.random.pick(&early);
        self.say(line).map(drop)
    }

    /// Starts the current graph, mostly with a local root, or reads one.
    fn begin(&mut self) -> io::Result<()> {
        if self.random.one_in(4) {
            let size = self.random.below(12);
            let nodes = samples::nodes(self.random, size);
            return self.read(&nodes);
        }
        self.init()?;
        if self.random.one_in(self.style.rootless) { Ok(()) } else { self.add_local_root() }
    }

    fn read(&mut self, nodes: &[samples::Node]) -> io::Result<()> {
        self.say(&format!("read {}", hex(&samples::snapshot(nodes)))).map(drop)
    }

    fn look_or_leave(&mut self) -> io::Result<()> {
        match self.random.below(10) {
            0..=2 => self.ask_about_node(),
            3 => self.say_all(&["marks", "chains"]),
            4 => self.say_all(&["dump", "chains"]),
            5 | 6 => self.read_back(),
            7 => self.work_on_the_other(),
            _ => self.bad_call(),
        }
    }

    /// Swaps; an empty graph is left again, begun, or asked in vain.
    fn work_on_the_other(&mut self) -> io::Result<()> {
        self.say("swap")?;
        if self.count() > 0 {
            return self.say("marks").map(drop);
        }
        match self.random.below(4) {
            0 => self.ask_too_early(),
            1 => self.begin(),
            _ => self.say("swap").map(drop),
        }
    }

    /// A call that is refused or no call, mostly.
    fn bad_call(&mut self) -> io::Result<()> {
        const LINES: [&str; 20] = [
            "", "init 0 0 /A", "init 0 0 //", "init 0 /A", "add", "add 0 0 0 0 0 - - 0 0 0 1 /A",
            "add 0 4 2 0 0 - - 0 0 0 1 /A", "add 0 4 0 0 0 - - 0 0 0 2 /A", "add 0 4 0 0 0 4294967294 - 0 0 0 1 /A",
            "add 1024 4 0 0 0 - - 0 0 0 1 //", "add 0 7 0 0 0 - - 0 0 0 1 /A/", "read 0", "read 0g", "read 00",
            "read 00000003010000ff", "read 00000003020000", "using 0 //", "using 0", "below -", "intro 65536",
        ];
        let line = self.random.pick(&LINES);
        self.say(line).map(drop)
    }

    /// Reaches 1,024 nodes, mostly by a snapshot, and tries to go on.
    fn reach_the_last_node(&mut self) -> io::Result<()> {
        self.say("new")?;
        let size = self.random.between(1, NODES);
        let mut nodes = samples::nodes(self.random, size);
        if !self.random.one_in(10) {
            samples::fill_nodes(&mut nodes, MAX_NODES - self.random.below(3));
        }
        self.read(&nodes)?;
        let missing = MAX_NODES - self.count();
        for _ in 0..missing + 3 {
            self.add_reference(1)?;
        }
        self.look_at_a_limit()
    }

    /// Reaches the last byte that paths may have, and tries to go on, before it or at it.
    fn reach_the_last_byte(&mut self) -> io::Result<()> {
        self.say("new")?;
        let size = self.random.between(1, NODES);
        let mut nodes = samples::nodes(self.random, size);
        let missing = self.random.between(1, Path::MAX_BYTES - 1);
        samples::fill_path_bytes(&mut nodes, MAX_PATH_BYTES - missing);
        self.read(&nodes)?;
        for length in [missing + 1, missing, 1] {
            self.add_reference(length)?;
        }
        self.look_at_a_limit()
    }

    /// Adds a node whose path has `length` bytes.
    fn add_reference(&mut self, length: usize) -> io::Result<()> {
        let path = String::from_utf8_lossy(&samples::path_of(length)).into_owned();
        self.say(&format!("add 0 4 0 0 0 - - 0 0 0 1 {path}")).map(drop)
    }

    fn look_at_a_limit(&mut self) -> io::Result<()> {
        for _ in 0..4 {
            self.ask_about_node()?;
        }
        self.say_all(&["marks", "dump", "chains", "write"])?;
        self.read_back()
    }
}
