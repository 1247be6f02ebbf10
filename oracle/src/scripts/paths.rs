//! Lines on paths: every short string over the classes of bytes that the rules tell apart, and over `-`, `|` and their
//! neighbours; paths and joined paths around the limit of 255 bytes, damaged paths, and lines that write no call.

use std::io::{self, Write};

use crate::line::MAX_LINE;
use crate::sdf::Path;
use plain::random::Random;

/// The bytes that the rules of paths tell apart: document 01's, as document 02, W2, widens them.
#[derive(Clone, Copy)]
enum Class {
    Mark(u8),
    Letter,
    Digit,
    Other,
}

const CLASSES: [Class; 10] = [
    Class::Mark(b'/'),
    Class::Mark(b'{'),
    Class::Mark(b'}'),
    Class::Mark(b'='),
    Class::Mark(b'_'),
    Class::Mark(b'-'),
    Class::Mark(b'|'),
    Class::Letter,
    Class::Digit,
    Class::Other,
];

/// `-` and `|` among their neighbours, with a sign, a letter and a digit.
const NEIGHBOURS: &[u8; 10] = b"-|,.{}~=z0";

/// A byte that separates words or lines and so cannot stand in a word.
fn separates(byte: u8) -> bool {
    byte == b' ' || byte == b'\n'
}

pub fn paths(seed: u64, out: &mut dyn Write) -> io::Result<()> {
    let mut script = Script { random: Random::new(seed), out };
    script.short_strings(&CLASSES, b"", 5)?;
    // Selections need more bytes than five: all that can follow their beginnings.
    script.short_strings(&CLASSES, b"/A{v", 4)?;
    script.short_strings(&CLASSES, b"/A{v=", 5)?;
    script.short_strings(&CLASSES, b"/A{v=x}", 4)?;
    script.short_strings(&CLASSES, b"/A{v=x}B", 3)?;
    for prefix in [&b"/A"[..], b"/A{v", b"/A{v=", b"/A{v=x}"] {
        script.short_strings(&NEIGHBOURS.map(Class::Mark), prefix, 4)?;
    }
    for at in 0..1_000 {
        for length in 250..=258 {
            let path = if at % 4 == 0 { script.empty_selection_at(length) } else { script.path_of(length) };
            script.around_the_limit(path)?;
        }
    }
    for _ in 0..5_000 {
        script.small_path()?;
    }
    script.oversized()?;
    script.bad_lines()
}

struct Script<'a> {
    random: Random,
    out: &'a mut dyn Write,
}

impl Script<'_> {
    fn line(&mut self, words: &[&[u8]]) -> io::Result<()> {
        self.out.write_all(&words.join(&b' '))?;
        self.out.write_all(b"\n")
    }

    fn path(&mut self, path: &[u8]) -> io::Result<()> {
        self.line(&[b"path", path])
    }

    fn back(&mut self, steps: usize, path: &[u8]) -> io::Result<()> {
        self.line(&[b"back", steps.to_string().as_bytes(), path])
    }

    /// `prefix` followed by every string of at most `longest` of the classes, each by a byte of its own.
    fn short_strings(&mut self, classes: &[Class], prefix: &[u8], longest: u32) -> io::Result<()> {
        for length in 1..=longest {
            for code in 0..classes.len().pow(length) {
                let mut path = prefix.to_vec();
                for place in 0..length {
                    let class = classes[code / classes.len().pow(place) % classes.len()];
                    path.push(self.byte_of(class));
                }
                self.short_string(&path)?;
            }
        }
        Ok(())
    }

    fn short_string(&mut self, path: &[u8]) -> io::Result<()> {
        self.path(path)?;
        if Path::parse(path).is_some() {
            for steps in 0..=4 {
                self.back(steps, path)?;
            }
        }
        Ok(())
    }

    fn byte_of(&mut self, class: Class) -> u8 {
        match class {
            Class::Mark(byte) => byte,
            Class::Letter => self.random.pick(b"AZazBmQ"),
            Class::Digit => self.random.pick(b"09158"),
            Class::Other => self.other_byte(),
        }
    }

    /// A byte that no path has. Neighbours of the classes, those of `-` and `|` most of all, bytes above 127 and control
    /// bytes come often.
    fn other_byte(&mut self) -> u8 {
        let near = b",.~,.~+*@[`^:;<>\"\\\t\r\0\x7f\x80\xaf\xc1\xff";
        loop {
            let byte = if self.random.one_in(2) { self.random.pick(near) } else { self.random.byte() };
            if !byte.is_ascii_alphanumeric() && !b"/{}=_-|".contains(&byte) && !separates(byte) {
                return byte;
            }
        }
    }

    /// Lines on one path of about 255 bytes.
    fn around_the_limit(&mut self, path: Vec<u8>) -> io::Result<()> {
        self.path(&path)?;
        let steps = self.steps(&path);
        self.back(steps, &path)?;
        self.join()?;
        self.damaged(path)
    }

    /// Lines on one path of a few bytes.
    fn small_path(&mut self) -> io::Result<()> {
        let length = self.random.between(1, 40);
        let path = self.path_of(length);
        self.path(&path)?;
        let steps = self.steps(&path);
        self.back(steps, &path)?;
        self.damaged(path)
    }

    /// A number of steps: around the number of names, or anywhere in its type.
    fn steps(&mut self, path: &[u8]) -> usize {
        let names = Path::parse(path).map_or(127, |path| path.prim_element_count());
        match self.random.below(6) {
            0 => 65_535,
            1 => self.random.below(65_536),
            2 => self.random.between(names.saturating_sub(2), names + 2),
            _ => self.random.between(0, names),
        }
    }

    /// A `join` line whose path would have about 255 bytes.
    fn join(&mut self) -> io::Result<()> {
        let total = self.random.between(253, 258);
        let name_length = if self.random.one_in(4) { self.random.between(1, 254) } else { self.random.between(1, 9) };
        let path = self.path_of(total.saturating_sub(name_length + 1).max(1));
        let between = usize::from(!path.ends_with(b"}") && path != b"/");
        let child = self.child_of(total.saturating_sub(path.len() + between).max(1));
        self.line(&[b"join", &path, &child])
    }

    /// A path that ends in a name of `name_length` bytes, and now and then in a selection.
    fn child_of(&mut self, name_length: usize) -> Vec<u8> {
        let mut child = match self.random.below(3) {
            0 => b"/".to_vec(),
            1 => self.random.pick(&[&b"/A{v=x}"[..], b"/A{v=}", b"/A{v=9-|}"]).to_vec(),
            _ => b"/A/b/".to_vec(),
        };
        child.extend(self.name(name_length));
        if self.random.one_in(20) {
            child.extend(self.random.pick(&[&b"{v=x}"[..], b"{v=}", b"{v=|-}"]));
        }
        child
    }

    /// A path of exactly `length` bytes that keeps every rule but, perhaps, the limit of 255.
    fn path_of(&mut self, length: usize) -> Vec<u8> {
        let longest_name = self.random.pick(&[1, 1, 2, 8, 60]);
        let selections = self.random.pick(&[1, 2, 4, 1_000]);
        let mut path = b"/".to_vec();
        if length > 1 {
            let name_length = self.random.between(1, longest_name.min(length - 1));
            path.extend(self.name(name_length));
        }
        while path.len() < length {
            let left = length - path.len();
            let piece = self.piece(left, path.ends_with(b"}"), longest_name, selections);
            path.extend(piece);
        }
        path
    }

    /// The same that ends in an empty selection. There are at least 12 bytes.
    fn empty_selection_at(&mut self, length: usize) -> Vec<u8> {
        let set_length = self.random.between(1, 7);
        let mut path = self.path_of(length - set_length - 3);
        path.push(b'{');
        path.extend(self.name(set_length));
        path.extend(b"=}");
        path
    }

    /// What may follow in a path and has at most `left` bytes.
    fn piece(&mut self, left: usize, after_selection: bool, longest_name: usize, selections: usize) -> Vec<u8> {
        if left >= 4 && self.random.one_in(selections) {
            return self.selection(left, longest_name);
        }
        if left == 1 && !after_selection {
            // One byte more of the last name.
            return vec![self.random.pick(b"aZ_7")];
        }
        let slash = usize::from(!after_selection);
        let name_length = self.random.between(1, longest_name.min(left - slash));
        let mut piece = b"/"[..slash].to_vec();
        piece.extend(self.name(name_length));
        piece
    }

    /// `{set=selection}` of at most `left` bytes, which are at least 4; the selection may be empty.
    fn selection(&mut self, left: usize, longest_name: usize) -> Vec<u8> {
        let set_length = self.random.between(1, longest_name.min(left - 3));
        let selection_length = self.random.between(0, longest_name.min(left - 3 - set_length));
        let mut piece = b"{".to_vec();
        piece.extend(self.name(set_length));
        piece.push(b'=');
        piece.extend((0..selection_length).map(|_| self.random.pick(b"aZ_09-|")));
        piece.push(b'}');
        piece
    }

    fn name(&mut self, length: usize) -> Vec<u8> {
        (0..length).map(|at| self.random.pick(if at == 0 { b"aZ_bQ" } else { b"aZ_09" })).collect()
    }

    /// A path with one byte changed, taken out or doubled, or cut short.
    fn damaged(&mut self, mut path: Vec<u8>) -> io::Result<()> {
        let at = self.random.below(path.len());
        match self.random.below(6) {
            0 => drop(path.remove(at)),
            1 => path.insert(at, path[at]),
            2 => path.truncate(at),
            3 => path[at] = self.random.pick(b"/{}=_a0-|,.~"),
            _ => path[at] = self.any_byte(),
        }
        let steps = self.steps(&path);
        self.path(&path)?;
        self.back(steps, &path)
    }

    /// Any byte but a newline; a space makes a line with one word more.
    fn any_byte(&mut self) -> u8 {
        let byte = self.random.byte();
        if byte == b'\n' { 0 } else { byte }
    }

    /// Paths far past the limit, and lines just within and past the length of a line.
    fn oversized(&mut self) -> io::Result<()> {
        let word = b"path ".len();
        for length in [256, 257, 300, 1_000, 4_096, 65_535, 65_536, MAX_LINE - word, MAX_LINE - word + 1] {
            let path = self.path_of(length);
            self.path(&path)?;
        }
        let long_number = "0".repeat(60_000) + "1";
        self.line(&[b"back", long_number.as_bytes(), b"/A/B/C"])
    }

    fn bad_lines(&mut self) -> io::Result<()> {
        for line in BAD_LINES {
            self.line(&[line])?;
        }
        Ok(())
    }
}

/// Lines that write no call, or barely do.
const BAD_LINES: [&[u8]; 40] = [
    b"", b" ", b"path", b"path ", b"path  /A", b" path /A", b"path /A ", b"path /A /B", b"Path /A", b"path\t/A",
    b"path /A\r", b"paths /A", b"back", b"back 1", b"back 1 ", b"back /A", b"back /A 1", b"back  /A", b"back - /A",
    b"back +1 /A/B", b"back -1 /A/B", b"back 1. /A/B", b"back 0x1 /A/B", b"back 1a /A/B", b"back \xb2 /A/B",
    b"back 65535 /A/B", b"back 65536 /A/B", b"back 00065535 /A/B", b"back 4294967296 /A/B", b"back 4294967297 /A/B",
    b"back 18446744073709551617 /A/B", b"back 1 /A/B /C", b"back 1 //", b"join /A", b"join /A ", b"join /A /B /C",
    b"join /A /", b"join / /A", b"join //A /A", b"join /A{v=x} /B{w=y}C",
];
