//! The lines of a script that set something of one node, and those that ask for its introduction.

use std::io;

use super::Script;
use crate::record::NO_NODE;

impl Script<'_> {
    /// A line that sets something of a node, which one time in twelve is not there.
    pub fn setting(&mut self) -> String {
        let node = if self.random.one_in(12) { self.node_beyond() } else { self.any_node() };
        match self.random.below(5) {
            0 | 1 => self.marking(node),
            2 => format!("spec {node} {}", self.random.pick(&["-", "-", "-", "0", "1", "300", "65535"])),
            3 => format!("specs {node} {}", self.random.pick(&[0, 0, 1])),
            _ => format!("restrict {node} {}", self.random.pick(&[0, 0, 1, 2, 300, 65_535])),
        }
    }

    /// A number at the count or past it.
    fn node_beyond(&mut self) -> u32 {
        let count = self.count() as u32;
        self.random.pick(&[count, count, count + 1, count + 100, 1_024, NO_NODE])
    }

    /// Flags that may be marked, CULLED mostly on one of the last nodes; now and then CULLED on a Root arc, or flags that
    /// describe the arc.
    fn marking(&mut self, node: u32) -> String {
        match self.random.below(16) {
            0 => format!("mark {} {}", self.root_arc(), self.random.pick(&[2, 3, 6, 7])),
            1 => format!("mark {node} {}", self.random.pick(&[8, 8, 9, 10, 15, 16, 32, 64, 128, 255])),
            2..=7 => format!("mark {} {}", self.recent_node(), self.random.pick(&[2, 2, 2, 3, 6, 7])),
            _ => format!("mark {node} {}", self.random.pick(&[0, 1, 1, 2, 4, 5])),
        }
    }

    /// Node 0, or the local root where there is one.
    fn root_arc(&mut self) -> u32 {
        let local_root = self.calls.current().graph().local_root().valid();
        self.random.pick(&[0, local_root.map_or(0, |root| root.0)])
    }

    /// Asks of a node where it was introduced.
    pub fn ask_about_introduction(&mut self) -> io::Result<()> {
        let node = self.node_number();
        self.say(&format!("due {node}"))?;
        self.say(&format!("introduced {node}"))?;
        Ok(())
    }
}
