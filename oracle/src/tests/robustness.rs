//! Every line gets one answer, whatever it says.

use std::io::Cursor;

use plain::random::Random;

use crate::Script;
use crate::line::MAX_LINE;
use crate::{scripts, stream};

fn answers(input: &[u8]) -> Vec<u8> {
    let mut out = Vec::new();
    stream::answer_all(&mut Cursor::new(input), &mut out, false).expect("memory takes every byte");
    out
}

fn lines(text: &[u8]) -> usize {
    text.iter().filter(|&&byte| byte == b'\n').count()
}

#[test]
fn ends_of_input() {
    assert_eq!(answers(b""), b"");
    assert_eq!(answers(b"\n"), b"\n");
    assert_eq!(answers(b"new"), b"ok\n");
    assert_eq!(answers(b"new\n"), b"ok\n");
    assert_eq!(answers(b"new\n\nnew"), b"ok\n\nok\n");
    assert_eq!(answers(b"new\r\n"), b"bad line\n");
}

#[test]
fn long_lines() {
    let path = |length: usize| [b"path ", vec![b'a'; length - 5].as_slice(), b"\nnew\n"].concat();
    assert_eq!(answers(&path(MAX_LINE)), b"refused 5\nok\n");
    assert_eq!(answers(&path(MAX_LINE + 1)), b"bad line\nok\n");
    assert_eq!(answers(&path(MAX_LINE * 3)), b"bad line\nok\n");
}

#[test]
fn random_bytes() {
    let mut random = Random::new(3);
    let garbage: Vec<u8> = (0..200_000).map(|_| random.byte()).collect();
    assert_eq!(lines(&answers(&garbage)), lines(&garbage) + usize::from(!garbage.ends_with(b"\n")));
}

#[test]
fn random_words() {
    const WORDS: [&str; 59] = [
        "mark", "spec", "specs", "restrict", "due", "introduced", "ancestor", "site", "propagated", "copy", "class",
        "path", "back", "join", "new", "init", "add", "read", "write", "dump", "chains", "marks", "compare", "sibling",
        "compares", "order", "list", "cull", "erasable", "erase", "deepen", "seed", "swap", "save", "restore", "using",
        "below", "intro", "0", "1", "2", "6", "8", "65535", "65536", "4294967295", "4294967296", "-", "/", "/A",
        "/A{v=x}", "/A{v=x}B", "/A{v=}", "/A{v=-|}B", "//", "01", "00000003010000", "0000", "\u{e9}",
    ];
    let mut random = Random::new(4);
    let mut script = String::from("init 0 0 /A\n");
    for _ in 0..20_000 {
        let length = random.pick(&[0, 1, 1, 2, 2, 3, 3, 4, 13]);
        let words: Vec<&str> = (0..length).map(|_| random.pick(&WORDS)).collect();
        script += &(words.join(" ") + "\n");
    }
    assert_eq!(lines(&answers(script.as_bytes())), lines(script.as_bytes()));
}

#[test]
fn the_longest_chains_of_origins_and_parents() {
    let mut script = String::from("init 0 0 /A/b\nadd 0 0 0 0 0 - 0 0 0 0 1 /A\n");
    for node in 2..512 {
        script += &format!("add 1 6 0 0 0 {} 0 0 0 0 0 /A\n", node - 1);
    }
    for node in 512..1_024 {
        script += &format!("add {} 6 8 0 0 {} 0 0 0 0 0 /A\n", node - 1, node - 2);
    }
    script += "compare 511 510\ncompare 1023 510\nsibling 511 2\ncull\nerasable\nwrite\nmarks\n";
    assert_eq!(lines(&answers(script.as_bytes())), lines(script.as_bytes()));
}

fn script(print: Script, seed: u64, count: usize) -> Vec<u8> {
    let mut script = Vec::new();
    print(seed, count, &mut script).expect("memory takes every byte");
    script
}

#[test]
fn repeatable_scripts() {
    let scripts: [(Script, usize); 9] = [
        (scripts::graphs, 60),
        (scripts::arenas, 300),
        (scripts::snapshots, 300),
        (scripts::strength, 300),
        (scripts::strength_large, 2),
        (scripts::relations, 300),
        (scripts::culls, 300),
        (scripts::culls_large, 5),
        (scripts::lists, 200),
    ];
    for (print, count) in scripts {
        let printed = script(print, 5, count);
        assert_eq!(lines(&answers(&printed)), lines(&printed));
        assert!(script(print, 5, count) == printed);
    }
}

/// Arenas and snapshots are scripts for a program that makes graphs and looks at them, and no more.
#[test]
fn words_of_the_arena_and_snapshot_scripts() {
    const WORDS: [&[u8]; 13] = [
        b"", b"new", b"init", b"add", b"read", b"write", b"dump", b"chains", b"marks", b"using", b"below", b"intro",
        b"swap",
    ];
    let printed = [script(scripts::arenas, 9, 600), script(scripts::snapshots, 9, 100)].concat();
    for line in printed.split(|&byte| byte == b'\n') {
        let word = line.split(|&byte| byte == b' ').next().unwrap_or(line);
        assert!(WORDS.contains(&word) && line.len() <= MAX_LINE, "{}", String::from_utf8_lossy(line));
    }
}

/// Every refusal that these scripts are for comes, and the limits are met on both sides.
#[test]
fn refusals_of_the_arena_and_snapshot_scripts() {
    let refused = |script: &[u8]| {
        let answers = String::from_utf8(answers(script)).expect("text");
        (0..=12).filter(|number| answers.lines().any(|line| line == format!("refused {number}"))).collect::<Vec<_>>()
    };
    assert_eq!(refused(&script(scripts::arenas, 10, 600)), [3, 4, 5, 6, 7, 12]);
    assert_eq!(refused(&script(scripts::snapshots, 10, 2_000)), [4, 5, 6, 7, 12]);
}

#[test]
fn the_path_script() {
    let mut script = Vec::new();
    scripts::paths(6, &mut script).expect("memory takes every byte");
    assert_eq!(lines(&answers(&script)), lines(&script));
    assert!(lines(&script) > 300_000 && script.len() < 20_000_000);
}

#[test]
fn scripts_with_bytes_changed() {
    let mut script = script(scripts::graphs, 7, 40);
    let mut random = Random::new(8);
    for _ in 0..script.len() / 50 {
        let at = random.below(script.len());
        script[at] = random.pick(b"0123456789 -|/{}=aA_\n");
    }
    let unfinished = usize::from(!script.ends_with(b"\n"));
    assert_eq!(lines(&answers(&script)), lines(&script) + unfinished);
}
