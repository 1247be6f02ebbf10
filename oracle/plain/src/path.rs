//! Document 01, "Path", as document 02, W2, widens it: the prim count, or that bytes are no path.

pub const MAX_BYTES: usize = 255;

/// The number of names in a path, at most 127; nothing where the bytes are malformed.
pub fn prim_count(path: &[u8]) -> Option<u8> {
    if path.len() > MAX_BYTES {
        return None;
    }
    let rest = path.strip_prefix(b"/")?;
    if rest.is_empty() {
        return Some(0);
    }
    let mut rest = name(rest)?;
    let mut names = 1;
    let mut selected = false;
    while let Some((&first, tail)) = rest.split_first() {
        match first {
            b'{' => {
                rest = selection(tail)?;
                selected = true;
                continue;
            }
            b'/' if !selected => rest = name(tail)?,
            _ if selected => rest = name(rest)?,
            _ => return None,
        }
        names += 1;
        selected = false;
    }
    Some(names)
}

/// A well-formed path taken back by so many steps: "each step drops all trailing selections, then takes the parent; at
/// `/` it stays".
pub fn back(path: &[u8], steps: usize) -> &[u8] {
    (0..steps).fold(path, |path, _| parent(without_selections(path)))
}

fn without_selections(path: &[u8]) -> &[u8] {
    if path.ends_with(b"}") { without_selections(parent(path)) } else { path }
}

/// "The parent of a path ending in `}` stops before the last `{`. Otherwise it stops before the last `/`, or after the
/// last `}` if that is later; `/A` has parent `/`." Here `/` is its own.
fn parent(path: &[u8]) -> &[u8] {
    let last = |byte: u8| path.iter().rposition(|&other| other == byte);
    let end = if path.ends_with(b"}") { last(b'{') } else { last(b'/').max(last(b'}').map(|at| at + 1)) };
    &path[..end.unwrap_or(0).max(1)]
}

/// What follows the name that `bytes` begin with.
fn name(bytes: &[u8]) -> Option<&[u8]> {
    let first = *bytes.first()?;
    begins_name(first).then(|| &bytes[word_length(bytes)..])
}

/// What follows a set and its selection, which may be empty, from behind their opening brace.
fn selection(bytes: &[u8]) -> Option<&[u8]> {
    let value = name(bytes)?.strip_prefix(b"=")?;
    let length = value.iter().position(|&byte| !in_selection(byte)).unwrap_or(value.len());
    value[length..].strip_prefix(b"}")
}

/// How many letters, digits and `_` the bytes begin with.
fn word_length(bytes: &[u8]) -> usize {
    bytes.iter().position(|&byte| !in_word(byte)).unwrap_or(bytes.len())
}

fn in_word(byte: u8) -> bool {
    byte.is_ascii_alphanumeric() || byte == b'_'
}

fn in_selection(byte: u8) -> bool {
    in_word(byte) || byte == b'-' || byte == b'|'
}

fn begins_name(byte: u8) -> bool {
    byte.is_ascii_alphabetic() || byte == b'_'
}

#[cfg(test)]
mod tests {
    use super::{back, prim_count};

    #[test]
    fn prim_counts() {
        let counted: [(&[u8], u8); 16] = [
            (b"/", 0),
            (b"/A", 1),
            (b"/A{v=x}", 1),
            (b"/A{v=x}B", 2),
            (b"/A{v=x}{w=y}", 1),
            (b"/A{v=x}B/C", 3),
            (b"/_9{_=9}_9", 2),
            (b"/Cell{drive=}", 1),
            (b"/Cell{drive=ac-400|b}", 1),
            (b"/A{v=}B", 2),
            (b"/A{v=}{w=}", 1),
            (b"/A{v=}{w=}B/C", 3),
            (b"/A{v=-}", 1),
            (b"/A{v=|}B", 2),
            (b"/A{v=9-}", 1),
            (b"/A{v=-|_aZ09}", 1),
        ];
        for (path, count) in counted {
            assert_eq!(prim_count(path), Some(count), "{}", String::from_utf8_lossy(path));
        }
    }

    #[test]
    fn paths_taken_back() {
        let taken: [(&[u8], usize, &[u8]); 10] = [
            (b"/A{v=x}B{w=y}", 0, b"/A{v=x}B{w=y}"),
            (b"/A{v=x}B{w=y}", 1, b"/A{v=x}"),
            (b"/A{v=x}B{w=y}", 2, b"/"),
            (b"/A{v=x}B{w=y}", 9, b"/"),
            (b"/A{v=x}{w=y}B/C", 2, b"/A{v=x}{w=y}"),
            (b"/A{v=}B{w=-|}", 1, b"/A{v=}"),
            (b"/A{v=}{w=}", 1, b"/"),
            (b"/A/B", 1, b"/A"),
            (b"/A", 1, b"/"),
            (b"/", 1, b"/"),
        ];
        for (path, steps, left) in taken {
            assert_eq!(back(path, steps), left, "{}", String::from_utf8_lossy(path));
        }
    }

    #[test]
    fn malformed_paths() {
        let malformed = [
            "", "A", "//", "/A/", "/A//B", "/1", "/A/1", "/{v=x}", "{v=x}", "/A{v=x}/B", "/A{v=x}1", "/A{1=x}",
            "/A{=x}", "/A{v}", "/A{v=x", "/A{v=x}}", "/A}", "/A{{v=x}", "/A{v=x=y}", "/A=B", "/A B", "/É", "/A{v=",
            "/A{v=.}", "/A{v=+}", "/A{v=,}", "/A{v=~}", "/A{v={}", "/A{v=x y}", "/A{v==}", "/A-B", "/A|B", "/A{v-w=x}",
            "/A{v|w=x}", "/A{-=x}", "/A{|=}", "/-", "/A{v=x}-", "/A{v=x}|B", "/A{v=}1", "/A{v=}/B", "/A{=}", "/{v=}",
        ];
        for path in malformed {
            assert_eq!(prim_count(path.as_bytes()), None, "{path}");
        }
    }

    #[test]
    fn lengths() {
        assert_eq!(prim_count("/a".repeat(127).as_bytes()), Some(127));
        assert_eq!(prim_count(format!("/{}", "a".repeat(254)).as_bytes()), Some(1));
        assert_eq!(prim_count(format!("/{}", "a".repeat(255)).as_bytes()), None);
        assert_eq!(prim_count(format!("/{}{{v=}}", "a".repeat(250)).as_bytes()), Some(1));
        assert_eq!(prim_count(format!("/{}{{v=}}", "a".repeat(251)).as_bytes()), None);
    }
}
