//! Deepening and seeding: an example for each rule, each refusal and each limit; and the sixteen calls on which demand 3 is
//! computed.

use super::check;

/// Node 0 and the local root `/M/a`; under it two References, of which one has no specs, and an Inherit.
const CELL: &str = "init 0 0 /M/a => 0
    add - 0 0 0 0 - - 0 0 0 1 /M/a => 1
    add 1 4 0 0 0 - 1 0 0 0 0 /R/a => 2
    add 1 4 0 0 0 - 1 0 0 0 1 /Q/a => 3
    add 1 1 0 0 0 - 1 0 0 0 1 /C/a => 4";

/// A name, or a path of one name, of so many bytes.
fn name(length: usize) -> String {
    "n".repeat(length)
}

fn path(length: usize) -> String {
    format!("/{}", name(length - 1))
}

#[test]
fn an_empty_graph() {
    check(
        "deepen /a => refused 3
        deepen // => refused 3
        seed /a => refused 3
        seed // => refused 3
        marks => 0 0 0
        dump => ",
    );
}

#[test]
fn bad_lines() {
    for word in ["deepen", "seed"] {
        check(&format!(
            "init 0 0 /M => 0
            {word} => bad line
            {word}  => bad line
            {word}  /a => bad line
            {word} /a /b => bad line
            {word}s /a => bad line
            {word}/a => bad line
            dump => 0,1,0,0,-,-,1,0,0,0,1,/M",
        ));
    }
}

/// The path must be well formed and end in a name; its last name counts, whatever comes before it.
#[test]
fn child_paths() {
    for word in ["deepen", "seed"] {
        for child in ["/", "/A{v=x}", "/A/b{v=x}", "//", "/A/", "A", "/1", "/A{v=x}/b", "{v=x}", &path(256)] {
            check(&format!(
                "init 0 0 /M => 0\n{word} {child} => refused 5\ndump => 0,1,0,0,-,-,1,0,0,0,1,/M\nmarks => 0 0 0"
            ));
        }
        for child in ["/b", "/M/b", "/A{v=x}b", "/A/c{v=x}{w=y}b"] {
            check(&format!("init 0 0 /M => 0\n{word} {child} => ok\ndump => 0,1,0,0,-,-,1,0,0,0,1,/M/b"));
        }
    }
}

/// Every site gets the name, node 0's too, with a slash or without; no other field changes.
#[test]
fn every_site() {
    check(
        "init 1 2 / => 0
        add - 0 0 1 2 - - 0 0 0 1 /M => 1
        add 1 2 4 1 2 - 0 65535 3 4 0 /M{v=x} => 2
        add 2 1 248 7 8 1 1 2 5 6 1 /M{v=x}b => 3
        add 2 4 0 9 9 0 0 0 0 0 1 /M/b{v=x}{w=y} => 4
        deepen /M{v=x}k => ok
        dump => 0,1,1,2,-,-,0,0,0,0,1,/k;0,0,1,2,0,0,1,0,0,0,1,/M/k;2,4,1,2,1,1,0,65535,3,4,0,/M{v=x}k;\
1,248,7,8,2,1,1,2,5,6,1,/M{v=x}b/k;4,0,9,9,2,0,0,0,0,0,1,/M/b{v=x}{w=y}k
        chains => 1;2;3,4;;
        below 2 => 2
        intro 2 => /
        below 3 => 1
        intro 3 => /M{v=x}b
        using 9 /M/b{v=x}{w=y}k => 4
        using 9 /M/b{v=x}{w=y} => -",
    );
}

#[test]
fn paths_of_255_bytes() {
    let deepened = |from: &str, child: &str, answers: [&str; 2]| {
        check(&format!("init 0 0 {from} => 0\nseed {child} => {}", answers[0]));
        check(&format!("init 0 0 {from} => 0\ndeepen {child} => {}\ndeepen /b => {}", answers[0], answers[1]));
    };
    deepened(&path(253), "/b", ["ok", "refused 7"]);
    deepened(&path(254), "/b", ["refused 7", "refused 7"]);
    deepened(&path(255), "/b", ["refused 7", "refused 7"]);
    deepened(&format!("/A{{v={}}}", name(248)), "/b", ["ok", "refused 7"]);
    deepened(&format!("/A{{v={}}}", name(249)), "/b", ["refused 7", "refused 7"]);
    deepened("/", &path(255), ["ok", "refused 7"]);
    deepened("/A", &path(253), ["ok", "refused 7"]);
    deepened("/A", &path(254), ["refused 7", "ok"]);
}

/// One path too many: the paths before it and behind it stay.
#[test]
fn a_path_too_long_among_others() {
    let long = path(254);
    for word in ["deepen", "seed"] {
        check(&format!(
            "init 0 0 /M => 0
            add - 4 0 0 0 - 0 0 0 0 1 {long} => 1
            add - 4 0 0 0 - 0 0 0 0 1 /R => 2
            order => ok
            {word} /b => refused 7
            dump => 0,1,0,0,-,-,1,0,0,0,1,/M;4,0,0,0,0,0,0,0,0,0,1,{long};4,0,0,0,0,0,0,0,0,0,1,/R
            marks => 1 1 0
            list => 0 1 2
            erase 010 => 2
            {word} /b => ok
            dump => 0,1,0,0,-,-,1,0,0,0,1,/M/b;4,0,0,0,0,0,0,0,0,0,1,/R/b
            marks => 1 1 0",
        ));
    }
}

/// 130 paths whose sum is 32,769 bytes once they are deepened, then 32,768.
#[test]
fn the_sum_of_path_bytes() {
    let mut script = format!("init 0 0 {} => 0\n", path(250));
    for node in 1..130 {
        let length = if node > 120 { 251 } else { 250 };
        script += &format!("add - 4 0 0 0 - 1 0 0 0 1 {} => {node}\n", path(length));
    }
    script += &format!("deepen /b => refused 7\nseed /b => refused 7\nerase {:0130} => 129\n", 1);
    script += &format!("add - 4 0 0 0 - 1 0 0 0 1 {} => 129\nseed /b => ok\n", path(250));
    script += "add - 4 0 0 0 - 1 0 0 0 1 / => refused 7\ndeepen /b => refused 7\nswap => ok\ndeepen /b => ok\n";
    script += &format!("using 0 {}/b => 1\nadd - 4 0 0 0 - 1 0 0 0 1 / => refused 7", path(250));
    check(&script);
}

/// A shallow graph loses its order, though its parents are then as deep as their children's depths.
#[test]
fn a_shallow_graph() {
    const SHALLOW: &str = "init 0 0 /A => 0
        add 0 4 0 0 0 - 0 0 0 0 1 /R => 1
        add 0 4 0 0 0 - 2 0 0 0 1 /S => 2
        order => ok
        marks => 1 0 1
        list => 0 2 1
        chains => 2,1;;";
    check(&format!(
        "{SHALLOW}
        deepen /b => ok
        marks => 0 0 1
        list => refused 10
        chains => 2,1;;
        dump => 0,1,0,0,-,-,1,0,0,0,1,/A/b;4,0,0,0,0,0,0,0,0,0,1,/R/b;4,0,0,0,0,0,2,0,0,0,1,/S/b
        order => ok
        marks => 1 0 1
        list => 0 2 1"
    ));
    check(&format!(
        "{SHALLOW}
        seed /b => ok
        marks => 0 0 1
        list => refused 10
        chains => 2,1;;
        swap => ok
        marks => 1 0 1
        list => 0 2 1
        dump => 0,1,0,0,-,-,1,0,0,0,1,/A;4,0,0,0,0,0,0,0,0,0,1,/R;4,0,0,0,0,0,2,0,0,0,1,/S"
    ));
}

/// It keeps its marks and its list, every pair compares as before, and ordering changes nothing.
#[test]
fn a_finalized_graph() {
    for word in ["deepen", "seed"] {
        check(&format!(
            "{CELL}
            {word} /b => ok
            marks => 0 0 0
            list => refused 10
            order => ok
            marks => 1 1 0
            list => 0 1 4 2 3
            chains => 1;4,2,3;;;
            compares => ELLLL GELLL GGELG GGGEG GGLLE
            {word} /M/a/c => ok
            marks => 1 1 0
            list => 0 1 4 2 3
            chains => 1;4,2,3;;;
            compares => ELLLL GELLL GGELG GGGEG GGLLE
            order => ok
            marks => 1 1 0
            list => 0 1 4 2 3
            chains => 1;4,2,3;;;
            dump => 0,1,0,0,-,-,2,0,0,0,1,/M/a/b/c;0,0,0,0,0,0,2,0,0,0,1,/M/a/b/c;4,0,0,0,1,1,1,0,0,0,0,/R/a/b/c;\
4,0,0,0,1,1,1,0,0,0,1,/Q/a/b/c;1,0,0,0,1,1,1,0,0,0,1,/C/a/b/c
            add 1 4 0 0 0 - 2 0 0 0 1 /T => 5
            marks => 0 0 0
            list => refused 10
            order => ok
            list => 0 1 4 5 2 3",
        ));
    }
}

/// The arena that is filled held a larger graph, ordered in another way; none of it is left.
#[test]
fn seeding_over_a_graph() {
    check(&format!(
        "{CELL}
        add 4 6 8 5 5 2 0 9 9 9 1 /S/a/b/c => 5
        order => ok
        list => 0 1 4 5 2 3
        swap => ok
        init 3 4 /N => 0
        add 0 4 0 3 4 - 0 0 0 0 1 /R => 1
        add 0 1 0 3 4 - 0 0 0 0 1 /C => 2
        order => ok
        list => 0 2 1
        seed /N/c => ok
        dump => 0,1,3,4,-,-,1,0,0,0,1,/N/c;4,0,3,4,0,0,0,0,0,0,1,/R/c;1,0,3,4,0,0,0,0,0,0,1,/C/c
        chains => 2,1;;
        marks => 1 1 0
        list => 0 2 1
        compares => ELL GEG GLE
        add 1 4 0 0 0 - - 0 0 0 1 /T => 3
        chains => 2,1;3;;
        order => ok
        list => 0 2 1 3
        swap => ok
        dump => 0,1,3,4,-,-,1,0,0,0,1,/N;4,0,3,4,0,0,0,0,0,0,1,/R;1,0,3,4,0,0,0,0,0,0,1,/C
        marks => 1 1 0
        list => 0 2 1
        seed /N/d => ok
        dump => 0,1,3,4,-,-,1,0,0,0,1,/N/d;4,0,3,4,0,0,0,0,0,0,1,/R/d;1,0,3,4,0,0,0,0,0,0,1,/C/d"
    ));
}

/// An ordered graph over one that is not, and the other way round.
#[test]
fn marks_of_the_arena_that_is_filled() {
    check(
        "init 0 0 /M => 0
        order => ok
        swap => ok
        init 0 0 /N => 0
        add 0 4 0 0 0 - 9 0 0 0 1 /R => 1
        marks => 0 0 1
        seed /a => ok
        marks => 0 0 1
        list => refused 10
        erase 01 => 1
        order => ok
        marks => 1 0 1
        new => ok
        init 0 0 /N => 0
        add 0 4 0 0 0 - 9 0 0 0 1 /R => 1
        order => ok
        marks => 1 0 1
        swap => ok
        init 0 0 /M => 0
        order => ok
        marks => 1 1 0
        seed /a => ok
        marks => 1 1 0
        list => 0
        chains => ",
    );
}

/// What was erased does not come back, in the arena that is filled or in the other.
#[test]
fn seeding_from_what_was_erased_from() {
    check(&format!(
        "{CELL}
        order => ok
        cull => ok
        erasable => 00100
        erase 00100 => 4
        seed /b => ok
        dump => 0,1,0,0,-,-,2,0,0,0,1,/M/a/b;0,0,0,0,0,0,2,0,0,0,1,/M/a/b;4,0,0,0,1,1,1,0,0,0,1,/Q/a/b;\
1,0,0,0,1,1,1,0,0,0,1,/C/a/b
        chains => 1;3,2;;
        marks => 1 1 0
        list => 0 1 3 2
        compares => ELLL GELL GGEG GGLE
        add 1 4 0 0 0 - 1 0 0 0 1 /T/a/b => 4
        order => ok
        list => 0 1 3 2 4
        swap => ok
        dump => 0,1,0,0,-,-,2,0,0,0,1,/M/a;0,0,0,0,0,0,2,0,0,0,1,/M/a;4,0,0,0,1,1,1,0,0,0,1,/Q/a;\
1,0,0,0,1,1,1,0,0,0,1,/C/a
        list => 0 1 3 2
        erase 0001 => 3
        swap => ok
        erase 00110 => 3
        seed /c => ok
        list => 0 1 2
        dump => 0,1,0,0,-,-,2,0,0,0,1,/M/a/b/c;0,0,0,0,0,0,2,0,0,0,1,/M/a/b/c;4,0,0,0,1,1,1,0,0,0,1,/T/a/b/c"
    ));
}

/// The sixteen calls of `crates/call_sequences/proofs/Demand3Examples.antt`: the graph is ordered, finalized and has a
/// node to erase.
#[test]
fn the_sixteen_calls_of_demand_3() {
    check(&format!(
        "{CELL}
        order => ok
        cull => ok
        erase 01 => refused 11
        deepen /b => ok
        read 6e6f20736e617073686f74 => refused 12
        mark 3 5 => ok
        mark 1 2 => refused 6
        spec 4 2 => ok
        spec 2 - => ok
        specs 3 1 => ok
        restrict 1 1 => ok
        marks => 1 1 0
        list => 0 1 4 2 3
        chains => 1;4,2,3;;;
        dump => 0,1,0,0,-,-,2,0,0,0,1,/M/a/b;0,0,0,0,0,0,2,0,1,0,1,/M/a/b;4,2,0,0,1,1,1,0,0,0,0,/R/a/b;\
4,5,0,0,1,1,1,0,0,0,1,/Q/a/b;1,0,0,0,1,1,1,0,0,2,1,/C/a/b
        compares => ELLLL GELLL GGELG GGGEG GGLLE
        erasable => 00100
        seed /c => ok
        marks => 1 1 0
        list => 0 1 4 2 3
        compares => ELLLL GELLL GGELG GGGEG GGLLE
        swap => ok
        erase 00100 => 4
        marks => 1 1 0
        list => 0 1 3 2
        chains => 1;3,2;;
        compares => ELLL GELL GGEG GGLE
        order => ok
        list => 0 1 3 2
        chains => 1;3,2;;"
    ));
}
