//! One line of the language of the command `calls`: which call it writes, or that it writes none.

use crate::record::Record;

/// A longer line writes no call.
pub const MAX_LINE: usize = 131_072;

/// More bytes than a graph can have nodes write no erase set.
const MAX_SET: usize = 1_024;

/// A call with its arguments. They fit their fields' types; nothing else is known of them.
#[derive(Debug, PartialEq, Eq)]
pub enum Call<'a> {
    Path(&'a [u8]),
    Back(u16, &'a [u8]),
    Join(&'a [u8], &'a [u8]),
    New,
    Init(u32, u32, &'a [u8]),
    Add(Record<'a>),
    Read(Vec<u8>),
    Write,
    Dump,
    Chains,
    Marks,
    Compare(u32, u32),
    Sibling(u32, u32),
    Compares,
    Ancestor(u32, u32),
    Site(u32, u32),
    Order,
    List,
    Cull,
    Erasable,
    Erase(Vec<u8>),
    Deepen(&'a [u8]),
    Seed(&'a [u8]),
    Swap,
    Save,
    Restore,
    Rubbish,
    Using(u32, &'a [u8]),
    OfNode(u32, OfNode),
    Set(u32, Setting),
}

/// What is asked of one node.
#[derive(Debug, PartialEq, Eq)]
pub enum OfNode {
    Propagated,
    Copy,
    Class,
    Below,
    Intro,
    Due,
    Introduced,
}

/// What is set of one node.
#[derive(Debug, PartialEq, Eq)]
pub enum Setting {
    Mark(u8),
    FirstSpec(Option<u16>),
    HasSpecs(bool),
    Restriction(u16),
}

impl Call<'_> {
    /// Whether the call asks first that the current bytes hold a graph.
    pub fn asks_for_a_graph(&self) -> bool {
        use Call::*;
        !matches!(self, Path(_) | Back(..) | Join(..) | New | Read(_) | Swap | Save | Restore | Rubbish)
    }
}

/// The words of `line`. They stand between single spaces and have at least one byte.
fn words(line: &[u8]) -> Option<Vec<&[u8]>> {
    if line.len() > MAX_LINE {
        return None;
    }
    line.split(|&byte| byte == b' ').map(|word| (!word.is_empty()).then_some(word)).collect()
}

/// The call that `line` writes.
pub fn parse(line: &[u8]) -> Option<Call<'_>> {
    Some(match words(line)?[..] {
        [b"path", path] => Call::Path(path),
        [b"back", steps, path] => Call::Back(number(steps)?, path),
        [b"join", path, child] => Call::Join(path, child),
        [b"new"] => Call::New,
        [b"init", stack, layer, path] => Call::Init(number(stack)?, number(layer)?, path),
        [b"add", ref fields @ ..] => Call::Add(record(fields)?),
        [b"read", hex] => Call::Read(bytes(hex)?),
        [b"write"] => Call::Write,
        [b"dump"] => Call::Dump,
        [b"chains"] => Call::Chains,
        [b"marks"] => Call::Marks,
        [b"compare", a, b] => Call::Compare(number(a)?, number(b)?),
        [b"sibling", a, b] => Call::Sibling(number(a)?, number(b)?),
        [b"compares"] => Call::Compares,
        [b"ancestor", x, y] => Call::Ancestor(number(x)?, number(y)?),
        [b"site", a, b] => Call::Site(number(a)?, number(b)?),
        [b"order"] => Call::Order,
        [b"list"] => Call::List,
        [b"cull"] => Call::Cull,
        [b"erasable"] => Call::Erasable,
        [b"erase", set] => Call::Erase(erase_set(set)?),
        [b"deepen", path] => Call::Deepen(path),
        [b"seed", path] => Call::Seed(path),
        [b"swap"] => Call::Swap,
        [b"save"] => Call::Save,
        [b"restore"] => Call::Restore,
        [b"rubbish"] => Call::Rubbish,
        [b"using", stack, path] => Call::Using(number(stack)?, path),
        [word, node] => Call::OfNode(number(node)?, of_node(word)?),
        [word, node, value] => Call::Set(number(node)?, setting(word, value)?),
        _ => return None,
    })
}

fn of_node(word: &[u8]) -> Option<OfNode> {
    Some(match word {
        b"propagated" => OfNode::Propagated,
        b"copy" => OfNode::Copy,
        b"class" => OfNode::Class,
        b"below" => OfNode::Below,
        b"intro" => OfNode::Intro,
        b"due" => OfNode::Due,
        b"introduced" => OfNode::Introduced,
        _ => return None,
    })
}

fn setting(word: &[u8], value: &[u8]) -> Option<Setting> {
    Some(match word {
        b"mark" => Setting::Mark(number(value)?),
        b"spec" => Setting::FirstSpec(unless_missing(value)?),
        b"specs" => Setting::HasSpecs(yes_or_no(value)?),
        b"restrict" => Setting::Restriction(number(value)?),
        _ => return None,
    })
}

/// The words of an `add` line after the first, in the order of the line.
fn record<'a>(words: &[&'a [u8]]) -> Option<Record<'a>> {
    let &[parent, arc, flags, stack, layer, origin, depth, sibling, restriction, spec_from, has_specs, path] = words
    else {
        return None;
    };
    Some(Record {
        arc: number(arc)?,
        flags: number(flags)?,
        stack: number(stack)?,
        layer: number(layer)?,
        parent: unless_missing(parent)?,
        origin: unless_missing(origin)?,
        depth: unless_missing(depth)?,
        sibling: number(sibling)?,
        restriction: number(restriction)?,
        spec_from: number(spec_from)?,
        has_specs: number(has_specs)?,
        path,
    })
}

/// A number, or nothing within where `-` stands for a missing one.
fn unless_missing<T: TryFrom<u32>>(word: &[u8]) -> Option<Option<T>> {
    if word == b"-" { Some(None) } else { number(word).map(Some) }
}

/// One digit; a number that is written otherwise is none of the two.
fn yes_or_no(word: &[u8]) -> Option<bool> {
    match word {
        b"0" => Some(false),
        b"1" => Some(true),
        _ => None,
    }
}

/// Decimal digits whose number fits the type asked for.
fn number<T: TryFrom<u32>>(word: &[u8]) -> Option<T> {
    let number = word.iter().try_fold(0u32, |number, &byte| {
        let digit = char::from(byte).to_digit(10)?;
        number.checked_mul(10)?.checked_add(digit)
    })?;
    T::try_from(number).ok()
}

/// The bytes that pairs of hexadecimal digits in lower case write.
fn bytes(word: &[u8]) -> Option<Vec<u8>> {
    let pairs = word.chunks(2).map(|pair| match pair {
        &[high, low] => Some(hex_digit(high)? << 4 | hex_digit(low)?),
        _ => None,
    });
    pairs.collect()
}

fn hex_digit(byte: u8) -> Option<u8> {
    match byte {
        b'0'..=b'9' => Some(byte - b'0'),
        b'a'..=b'f' => Some(byte - b'a' + 10),
        _ => None,
    }
}

/// The bytes of an erase set, a digit each. Only 0 and 1 mean something; check 11 refuses the others where they count.
fn erase_set(word: &[u8]) -> Option<Vec<u8>> {
    if word.len() > MAX_SET {
        return None;
    }
    word.iter().map(|byte| byte.is_ascii_digit().then_some(byte - b'0')).collect()
}
