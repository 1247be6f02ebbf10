//! Document 01's section on paths, as document 02, W2, widens it.

use super::check;
use crate::judge::path_at_intro_depth;
use crate::scripts;
use crate::sdf::Path;
use crate::stand_ins::path::TooLong;
use plain::random::Random;

fn path(text: &str) -> Path {
    Path::parse(text.as_bytes()).expect("a well-formed path")
}

#[test]
fn prim_counts_parents_and_names() {
    check(
        "path / => 0 - -
        path /A => 1 / A
        path /A{v=x} => 1 /A -
        path /A{v=x}B => 2 /A{v=x} B
        path /A/B => 2 /A B
        path /A{v=x}{w=y} => 1 /A{v=x} -
        path /A{v=x}B/C => 3 /A{v=x}B C
        path /_9{_=9}_9 => 2 /_9{_=9} _9",
    );
}

/// Selections may be empty and have `-` and `|`, which may come first, as a digit may.
#[test]
fn selections() {
    check(
        "path /Cell{drive=} => 1 /Cell -
        path /Cell{drive=ac-400|b} => 1 /Cell -
        path /A{v=}B => 2 /A{v=} B
        path /A{v=}B/C => 3 /A{v=}B C
        path /A{v=}{w=} => 1 /A{v=} -
        path /A{v=}{w=}B => 2 /A{v=}{w=} B
        path /A{v=-} => 1 /A -
        path /A{v=|} => 1 /A -
        path /A{v=9-} => 1 /A -
        path /A{v=-|_aZ09}_ => 2 /A{v=-|_aZ09} _",
    );
}

#[test]
fn malformed_paths() {
    let malformed = [
        "", "A", "//", "/A/", "/A//B", "/1", "/A/1", "/{v=x}", "{v=x}", "/A{v=x}/B", "/A{v=x}1", "/A{1=x}", "/A{=x}",
        "/A{v}", "/A{v=x", "/A{v=x}}", "/A}", "/A{{v=x}", "/A{v=x=y}", "/A=B", "/A B", "/É", "/A{v=/}", "/A{v=",
        "/A{v=.}", "/A{v=+}", "/A{v=,}", "/A{v=~}", "/A{v={}", "/A{v=x y}", "/A{v==}", "/A-B", "/A|B", "/A{v-w=x}",
        "/A{v|w=x}", "/A{-=x}", "/A{|=}", "/-", "/A{v=x}-", "/A{v=x}|B", "/A{v=}1", "/A{v=}/B", "/A{=}", "/{v=}",
    ];
    for text in malformed {
        assert_eq!(Path::parse(text.as_bytes()), None, "{text}");
    }
    assert_eq!(Path::parse(b"/\xff"), None);
    assert_eq!(Path::parse(b"/A\0"), None);
}

/// The plain scan, which is written apart, has the same paths and counts the same names.
#[test]
fn the_plain_scan_agrees() {
    let mut script = Vec::new();
    scripts::paths(7, &mut script).expect("memory takes every byte");
    for line in script.split(|&byte| byte == b'\n') {
        let Some(path) = line.strip_prefix(b"path ") else { continue };
        let names = Path::parse(path).map(|path| path.prim_element_count() as u8);
        assert_eq!(plain::path::prim_count(path), names, "{}", String::from_utf8_lossy(path));
    }
}

#[test]
fn lengths() {
    let of = |length: usize| format!("/{}", "a".repeat(length - 1));
    assert!(Path::parse(of(255).as_bytes()).is_some());
    assert!(Path::parse(of(256).as_bytes()).is_none());
    assert!(path(&of(253)).append_path("b").is_ok());
    assert_eq!(path(&of(254)).append_path("b"), Err(TooLong));
    let selecting = |length: usize| of(length - 4) + "{v=}";
    assert!(Path::parse(selecting(255).as_bytes()).is_some());
    assert!(Path::parse(selecting(256).as_bytes()).is_none());
    assert!(path(&selecting(254)).append_path("b").is_ok());
    assert_eq!(path(&selecting(255)).append_path("b"), Err(TooLong));
}

#[test]
fn appended_names() {
    check(
        "join / /B => /B
        join /A /B => /A/B
        join /A{v=x} /C/B => /A{v=x}B
        join /A /C{v=x}B => /A/B
        join /A{v=} /B => /A{v=}B
        join /A{v=}{w=-|} /C{v=}B => /A{v=}{w=-|}B
        join /A /B{v=} => refused 5
        join /A / => refused 5
        join /A /B{v=x} => refused 5
        join /A/ /B => refused 5
        join /A B => refused 5",
    );
}

#[test]
fn introduction_paths() {
    check(
        "back 0 /A{v=x}B{w=y} => /A{v=x}B{w=y}
        back 1 /A{v=x}B{w=y} => /A{v=x}
        back 2 /A{v=x}B{w=y} => /
        back 65535 /A{v=x}B{w=y} => /
        back 1 /A{v=}B{w=-|} => /A{v=}
        back 2 /A{v=}B{w=-|} => /
        back 1 /A{v=}{w=} => /
        back 0 / => /
        back 1 / => /
        back 1 /A{v=x}{w=y} => /
        back 1 /A/ => refused 5",
    );
}

/// Document 01's own words for the steps, over the stand-in.
fn taken_back(path: &Path, steps: u16) -> Path {
    let mut path = path.clone();
    for _ in 0..steps {
        while path.is_variant_selection() {
            path = path.parent().expect("a selection has a parent");
        }
        path = path.parent().unwrap_or(path);
    }
    path
}

#[test]
fn the_rust_takes_paths_back_as_document_01_says() {
    let mut random = Random::new(1);
    for _ in 0..2_000 {
        let mut text = String::from("/A");
        for _ in 0..random.below(60) {
            let name = if text.ends_with('}') { "B" } else { "/B" };
            text += random.pick(&[name, name, "{v=x}", "{v=}", "{w=-|}"]);
        }
        let path = Path::parse(text.as_bytes()).unwrap_or(Path::abs_root());
        let steps = random.between(0, path.prim_element_count() + 2) as u16;
        assert_eq!(path_at_intro_depth(path.clone(), steps), taken_back(&path, steps), "{text} {steps}");
    }
    let deepest = path(&"/a".repeat(127));
    for steps in [0, 1, 126, 127, 128, u16::MAX] {
        assert_eq!(path_at_intro_depth(deepest.clone(), steps), taken_back(&deepest, steps), "{steps}");
    }
}
