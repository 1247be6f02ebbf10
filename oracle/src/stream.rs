//! Lines in, answers out: one answer for each line.

use std::io::{self, BufRead, Write};

use crate::calls::{Answer, Calls};
use crate::line::MAX_LINE;

/// Answers every line. Where it is asked for, each refusal is explained on standard error.
pub fn answer_all(input: &mut dyn BufRead, out: &mut dyn Write, explained: bool) -> io::Result<()> {
    let mut calls = Calls::default();
    let mut line = Vec::new();
    let mut number = 0u64;
    while next_line(input, &mut line)? {
        number += 1;
        let answer = calls.answer(&line);
        if let (true, Answer::Refused(refusal)) = (explained, &answer) {
            eprintln!("line {number}: refused {}: {}", refusal.number, refusal.reason);
        }
        writeln!(out, "{}", answer.text())?;
    }
    Ok(())
}

/// Reads a line without its newline, and answers whether there was a line. The last one may lack the newline. Of a line
/// too long to be a call, one byte more is kept than a call may have.
pub fn next_line(input: &mut dyn BufRead, line: &mut Vec<u8>) -> io::Result<bool> {
    line.clear();
    let mut found = false;
    loop {
        let read = input.fill_buf()?;
        if read.is_empty() {
            return Ok(found);
        }
        found = true;
        let newline = read.iter().position(|&byte| byte == b'\n');
        let piece = &read[..newline.unwrap_or(read.len())];
        let kept = piece.len().min(MAX_LINE + 1 - line.len());
        line.extend(&piece[..kept]);
        let used = piece.len() + usize::from(newline.is_some());
        input.consume(used);
        if newline.is_some() {
            return Ok(true);
        }
    }
}
