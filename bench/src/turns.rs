//! Processes that measure for a while whenever they are sent a line, and wait in between: so two are measured turn and
//! turn about, and meet the same machine.
use std::io::{self, BufRead, BufReader, Write};
use std::path::Path;
use std::process::{Child, ChildStdout, Command, Stdio};
use std::time::Duration;

/// How long a turn goes on.
pub const LONG: Duration = Duration::from_millis(40);

/// Such a process.
pub struct Turns {
    process: Child,
    answers: BufReader<ChildStdout>,
}

impl Turns {
    pub fn start(program: &Path, words: &[&str]) -> Option<Self> {
        let mut command = Command::new(program);
        let mut process = command.args(words).stdin(Stdio::piped()).stdout(Stdio::piped()).spawn().ok()?;
        let answers = BufReader::new(process.stdout.take()?);
        Some(Self { process, answers })
    }

    /// A turn, and the two words that are answered.
    pub fn turn(&mut self) -> Option<(String, String)> {
        self.process.stdin.as_mut()?.write_all(b"\n").ok()?;
        let mut line = String::new();
        self.answers.read_line(&mut line).ok()?;
        let (one, other) = line.trim().split_once(' ')?;
        Some((one.into(), other.into()))
    }
}

impl Drop for Turns {
    /// It ends when there is no more input.
    fn drop(&mut self) {
        drop(self.process.stdin.take());
        _ = self.process.wait();
    }
}

/// Is such a process: for each line of standard input a turn, and the two numbers that it gives.
pub fn serve(mut turn: impl FnMut() -> (f64, f64)) -> io::Result<()> {
    let mut out = io::stdout().lock();
    for line in io::stdin().lines() {
        line?;
        let (one, other) = turn();
        writeln!(out, "{one} {other}")?;
        out.flush()?;
    }
    Ok(())
}
