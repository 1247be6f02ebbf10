//! Stands for `sdf::Path`. Its file is not supplied, so this is document 01's section on paths, as document 02, W2,
//! widens it, and nothing more. Every path in the crate is one of these: those of the graph, and those of the lines
//! `path`, `back` and `join`.

use std::fmt;

/// A well-formed path. It is made by [`parse`](Path::parse), or from another one by a step that keeps it well formed.
#[derive(Clone, PartialEq, Eq)]
pub struct Path {
    text: String,
}

/// The path that appending a name would have made is longer than [`Path::MAX_BYTES`].
#[derive(Debug, PartialEq, Eq)]
pub struct TooLong;

impl Path {
    pub const MAX_BYTES: usize = 255;

    /// The path written by `bytes`, if they are well formed.
    pub fn parse(bytes: &[u8]) -> Option<Self> {
        if bytes.len() > Self::MAX_BYTES || !follows_grammar(bytes) {
            return None;
        }
        let text = String::from_utf8(bytes.to_vec()).ok()?;
        Some(Self { text })
    }

    /// `/`.
    pub fn abs_root() -> Self {
        Self { text: "/".into() }
    }

    pub fn as_str(&self) -> &str {
        &self.text
    }

    /// The prim count: the number of names.
    ///
    /// Each name stands straight after a `/` or a `}`. What stands there otherwise is nothing or a selection.
    pub fn prim_element_count(&self) -> usize {
        let pieces = self.text.split(['/', '}']);
        pieces.filter(|piece| piece.starts_with(begins_name)).count()
    }

    /// The path without its last name or last selection; `/` has no parent.
    pub fn parent(&self) -> Option<Self> {
        if self.text == "/" {
            return None;
        }
        let end = if self.is_variant_selection() {
            self.text.rfind('{')?
        } else {
            let slash = self.text.rfind('/')?;
            let after_brace = self.text.rfind('}').map_or(0, |brace| brace + 1);
            slash.max(after_brace).max(1)
        };
        Some(Self { text: self.text[..end].into() })
    }

    /// The last name, if the path ends in one: `/` does not, nor does a path that ends in a selection.
    pub fn name(&self) -> Option<&str> {
        let name = self.text.rsplit(['/', '}']).next()?;
        (!name.is_empty()).then_some(name)
    }

    /// Whether the path ends in a selection.
    pub fn is_variant_selection(&self) -> bool {
        self.text.ends_with('}')
    }

    /// Whether the path has one name. `/A{v=x}` has one: the Rust's own test is not supplied, document 01 asks for the
    /// prim count.
    pub fn is_root_prim(&self) -> bool {
        self.prim_element_count() == 1
    }

    /// The path with `name` appended: `/` goes between, except after `/` or `}`.
    pub fn append_path(&self, name: &str) -> Result<Self, TooLong> {
        let between = if self.text.ends_with(['/', '}']) { "" } else { "/" };
        let text = format!("{}{between}{name}", self.text);
        if text.len() > Self::MAX_BYTES {
            return Err(TooLong);
        }
        Ok(Self { text })
    }
}

impl fmt::Debug for Path {
    fn fmt(&self, f: &mut fmt::Formatter<'_>) -> fmt::Result {
        f.write_str(&self.text)
    }
}

/// Whether `bytes` are `/`, or `/` and a name and then any run of `/name`, `{set=selection}` and, straight after `}`, a
/// name with no slash.
fn follows_grammar(bytes: &[u8]) -> bool {
    if bytes == b"/" {
        return true;
    }
    let mut rest = bytes;
    let mut after_selection = false;
    loop {
        let next = match rest {
            [] => return !bytes.is_empty(),
            [b'{', selection @ ..] if rest.len() < bytes.len() => after_set_and_selection(selection),
            [b'/', name @ ..] if !after_selection => after_name(name),
            name if after_selection => after_name(name),
            _ => None,
        };
        let Some(next) = next else { return false };
        after_selection = rest[0] == b'{';
        rest = next;
    }
}

/// What follows `set=selection}`.
fn after_set_and_selection(bytes: &[u8]) -> Option<&[u8]> {
    let rest = after_name(bytes)?.strip_prefix(b"=")?;
    after_selection(rest).strip_prefix(b"}")
}

/// What follows the name, or the set, that `bytes` begin with.
fn after_name(bytes: &[u8]) -> Option<&[u8]> {
    let first = *bytes.first()?;
    begins_name(first.into()).then(|| after_run(bytes, in_word))
}

/// What follows the selection that `bytes` begin with, "any run, also of length nothing".
fn after_selection(bytes: &[u8]) -> &[u8] {
    after_run(bytes, in_selection)
}

/// What follows the characters of one sort that `bytes` begin with.
fn after_run(bytes: &[u8], belongs: fn(char) -> bool) -> &[u8] {
    let length = bytes.iter().take_while(|&&byte| belongs(byte.into())).count();
    &bytes[length..]
}

fn in_word(character: char) -> bool {
    character.is_ascii_alphanumeric() || character == '_'
}

fn in_selection(character: char) -> bool {
    in_word(character) || character == '-' || character == '|'
}

fn begins_name(character: char) -> bool {
    in_word(character) && !character.is_ascii_digit()
}
