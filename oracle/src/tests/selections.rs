//! Selections as document 02, W2, has them, in the calls on graphs: empty, or with `-` and `|`; and how many graphs of the
//! scripts have them.

use std::io::Cursor;

use plain::layout::INVALID;
use plain::samples::graphs::{Node, selecting_path_of, snapshot};

use super::{answers, check, printed};
use crate::calls::hex;
use crate::{Script, scripts, selections};

#[test]
fn makers_paths() {
    check(
        "init 0 0 /Cell{drive=} => 0
        add - 0 0 0 0 - - 0 0 0 1 /Cell{drive=} => 1
        add 1 4 0 1 0 - - 0 0 0 1 /Cell{drive=ac-400|b} => 2
        add 1 1 0 1 0 - 0 0 0 0 1 /Cell{drive=-}{size=}Motor => 3
        using 1 /Cell{drive=ac-400|b} => 2
        using 1 /Cell{drive=ac-400} => -
        using 1 /Cell{drive=} => -
        below 3 => 1
        intro 3 => /Cell{drive=-}{size=}
        order => ok
        list => 0 1 3 2
        dump => 0,1,0,0,-,-,1,0,0,0,1,/Cell{drive=};0,0,0,0,0,0,1,0,0,0,1,/Cell{drive=};\
4,0,1,0,1,1,1,0,0,0,1,/Cell{drive=ac-400|b};1,0,1,0,1,1,0,0,0,0,1,/Cell{drive=-}{size=}Motor",
    );
}

/// A site is its stack and its path, every byte: an empty selection is not the same as none.
#[test]
fn sites() {
    check(
        "init 0 0 /A => 0
        add 0 4 0 0 0 - - 0 0 0 1 /A{v=} => 1
        add 0 4 0 0 0 - - 0 0 0 1 /A{v=-} => 2
        add 0 4 0 0 0 - - 0 0 0 1 /A{v=|} => 3
        add 0 4 0 0 0 - - 0 0 0 1 /A{v=} => 4
        site 0 1 => 0
        site 1 2 => 0
        site 2 3 => 0
        site 1 4 => 1
        using 0 /A{v=|} => 3
        using 0 /A{v=.} => refused 5",
    );
}

#[test]
fn refused_paths() {
    for path in ["/A{v=.}", "/A{v=~}", "/A-B", "/A{v|w=x}", "/A{v=}-", "/A{v=}/b"] {
        check(&format!(
            "init 0 0 {path} => refused 5
            init 0 0 /A => 0
            add 0 4 0 0 0 - - 0 0 0 1 {path} => refused 5
            using 0 {path} => refused 5
            deepen {path} => refused 5
            seed {path} => refused 5"
        ));
    }
}

#[test]
fn deepening_and_seeding() {
    for word in ["deepen", "seed"] {
        check(&format!(
            "init 0 0 /A{{v=}} => 0
            add - 0 0 0 0 - - 0 0 0 1 /A{{v=}}b{{w=-|}} => 1
            {word} /A{{v=}} => refused 5
            {word} /A{{v=|}}k => ok
            dump => 0,1,0,0,-,-,1,0,0,0,1,/A{{v=}}k;0,0,0,0,0,0,2,0,0,0,1,/A{{v=}}b{{w=-|}}k
            using 0 /A{{v=}}b{{w=-|}}k => 1"
        ));
    }
}

#[test]
fn paths_of_255_bytes() {
    let of = |length| String::from_utf8(selecting_path_of(length)).expect("text");
    for word in ["deepen", "seed"] {
        check(&format!("init 0 0 {} => refused 5", of(256)));
        check(&format!("init 0 0 {} => 0\n{word} /b => refused 7", of(255)));
        check(&format!("init 0 0 {} => 0\n{word} /b => ok\n{word} /b => refused 7", of(254)));
        check(&format!("init 0 0 {} => 0\n{word} /bc => refused 7\n{word} /b => ok", of(254)));
    }
    check(&format!(
        "init 0 0 / => 0
        add 0 4 0 0 0 - - 0 0 0 1 {} => refused 5
        add 0 4 0 0 0 - - 0 0 0 1 {} => 1",
        of(256),
        of(255),
    ));
}

fn root(flags: u8, path: &str) -> Node {
    Node { arc: 0, flags, parent: INVALID, origin: INVALID, ..Node::reference(path.into()) }
}

fn read(nodes: &[Node]) -> String {
    answers(&format!("read {}", hex(&snapshot(nodes)))).concat()
}

/// Before document 02 all but the last two were refused 5.
#[test]
fn snapshots() {
    let cell = || root(1, "/Cell{drive=}");
    let motor = || Node::reference(b"/Cell{drive=ac-400|b}Motor".into());
    assert_eq!(read(&[cell()]), "1");
    assert_eq!(read(&[cell(), motor()]), "2");
    assert_eq!(read(&[root(3, "/Cell{drive=}")]), "refused 6");
    assert_eq!(read(&[cell(), Node { arc: 7, ..motor() }]), "refused 6");
    assert_eq!(read(&[cell(), Node { has_specs: 2, ..motor() }]), "refused 6");
    let long = |nodes| [vec![root(1, "/")], vec![Node::reference(selecting_path_of(255)); nodes]].concat();
    assert_eq!(read(&long(128)), "129");
    assert_eq!(read(&long(129)), "refused 7");
    assert_eq!(read(&[vec![cell()], vec![Node::reference(b"/A{v=}".into()); 1_024]].concat()), "refused 7");
    assert_eq!(read(&[cell(), Node { parent: 1, ..motor() }]), "refused 4");
    assert_eq!(read(&[cell(), Node::reference(b"/Cell{drive=.}".into())]), "refused 5");
}

fn counted(words: &[&str], lines: &str) -> [usize; 2] {
    selections::count(words, &mut Cursor::new(lines)).expect("memory gives every byte")
}

#[test]
fn counting() {
    let read = format!("read {}\n", hex(&snapshot(&[root(1, "/"), Node::reference(b"/A{v=}b".into())])));
    assert_eq!(counted(&["new"], ""), [0, 0]);
    assert_eq!(counted(&["new"], &read), [0, 0]);
    assert_eq!(counted(&["read"], &read.repeat(2)), [2, 2]);
    assert_eq!(counted(&[""], &format!("\n{read}\ninit 0 0 /A\n\nadd - 4 0 0 0 - - 0 0 0 1 /A{{v=-}}")), [3, 2]);
    assert_eq!(counted(&["new", "init"], "new\ninit 0 0 /A{v=}\ninit 0 0 /A{v=}\nnew"), [4, 2]);
    let others = "init 0 0 /A{v=x}\ninit 0 0 /A-B\ninit 0 0 /A{v=.}\ninit 0 0\nadd - - /A{v=}\nusing 0 /A{v=}\nread 00";
    assert_eq!(counted(&["init"], others), [4, 0]);
}

/// A third of the graphs, snapshots and lists of each script.
#[test]
fn scripts_with_such_paths() {
    let scripts: [(Script, usize, &[&str]); 12] = [
        (scripts::graphs, 200, &["new"]),
        (scripts::arenas, 500, &["new"]),
        (scripts::snapshots, 2_000, &["read"]),
        (scripts::strength, 2_000, &["read"]),
        (scripts::strength_large, 20, &["read"]),
        (scripts::relations, 2_000, &["read"]),
        (scripts::orders, 2_000, &["read", "init"]),
        (scripts::orders_large, 20, &["read", "init"]),
        (scripts::sequences, 500, &["init"]),
        (scripts::culls, 1_000, &["read", "init"]),
        (scripts::culls_large, 10, &["read"]),
        (scripts::lists, 500, &[""]),
    ];
    for (at, (script, count, words)) in scripts.into_iter().enumerate() {
        let [parts, wider] = counted(words, &printed(script, 51, count));
        assert!(parts >= count && 3 * wider >= parts, "script {at}: {wider} of {parts}");
    }
}
