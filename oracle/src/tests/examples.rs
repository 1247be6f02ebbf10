//! The examples of document 01 on graphs, and its edges.

use super::{answers, check};
use crate::calls::{Calls, hex};

#[test]
fn the_listing() {
    check(
        "init 0 0 /M => 0
        add - 0 0 0 0 - - 0 0 0 1 /M => 1
        add 1 4 0 1 0 - - 0 0 0 1 /R => 2
        add 1 1 0 1 0 - - 0 0 0 1 /C => 3
        list => refused 10
        marks => 0 0 0
        order => ok
        list => 0 1 3 2
        marks => 1 1 0
        chains => 1;3,2;;
        compares => ELLL GELL GGEG GGLE
        dump => 0,1,0,0,-,-,1,0,0,0,1,/M;0,0,0,0,0,0,1,0,0,0,1,/M;4,0,1,0,1,1,1,0,0,0,1,/R;1,0,1,0,1,1,1,0,0,0,1,/C",
    );
}

#[test]
fn the_cycle_of_three_siblings() {
    check(
        "init 0 0 /M => 0
        add - 0 0 0 0 - - 0 0 0 1 /M => 1
        add 1 4 0 0 0 - - 0 0 0 1 /R => 2
        add 1 6 8 0 0 2 1 0 0 0 1 /S => 3
        add 1 6 8 0 0 2 3 0 0 0 1 /T => 4
        add 1 6 0 0 0 - 2 0 0 0 1 /U => 5
        sibling 3 4 => Less
        sibling 4 5 => Less
        sibling 5 3 => Less
        order => refused 9
        marks => 0 0 1
        chains => 1;2,3,4,5;;;;",
    );
}

#[test]
fn comparisons() {
    check(
        "init 0 0 /M => 0
        add - 0 0 0 0 - - 0 0 0 1 /M/a => 1
        add 1 4 0 0 0 - 1 0 0 0 1 /R => 2
        add 1 4 0 0 0 - 2 0 0 0 1 /S => 3
        compare 2 2 => Equal
        sibling 0 0 => Equal
        sibling 3 2 => Less
        compare 1 3 => Less
        compare 3 1 => Greater
        sibling 0 1 => refused 8
        sibling 1 2 => refused 8
        sibling 1 4 => refused 4
        compare 4294967295 0 => refused 4",
    );
}

#[test]
fn same_origin_implied_is_stronger() {
    check(
        "init 0 0 /M => 0
        add - 0 0 0 0 - - 0 0 0 1 /M => 1
        add 1 4 0 1 0 - - 0 0 0 1 /R => 2
        add 1 6 8 1 0 2 - 0 0 0 1 /R => 3
        add 1 6 8 0 0 2 - 5 0 0 1 /R => 4
        sibling 4 3 => Less
        order => ok
        list => 0 1 2 4 3",
    );
}

#[test]
fn depth_below_introduction() {
    check(
        "init 0 0 /M/a => 0
        add 0 4 0 0 0 - 1 0 0 0 1 /R/b => 1
        add 0 4 0 0 0 - 3 0 0 0 1 /R/b => 2
        marks => 0 0 1
        below 0 => 0
        below 1 => 1
        below 2 => 0
        intro 0 => /M/a
        intro 1 => /R
        intro 2 => /R/b
        below 3 => refused 4",
    );
}

#[test]
fn a_root_site_takes_its_depth_from_its_own_path() {
    check(
        "init 0 0 /M => 0
        add - 4 0 0 0 - - 0 0 0 1 /R/b/c => 1
        add 0 4 0 0 0 - - 0 0 0 1 /R/b/c => 2
        dump => 0,1,0,0,-,-,1,0,0,0,1,/M;4,0,0,0,0,0,3,0,0,0,1,/R/b/c;4,0,0,0,0,0,1,0,0,0,1,/R/b/c
        marks => 0 0 1",
    );
}

#[test]
fn an_origin_of_an_unmarked_node_stays() {
    // Node 2 and node 3 are marked. Node 4 is not, and has node 2 as its origin.
    check(
        "init 0 0 /M/a => 0
        add - 0 0 0 0 - - 0 0 0 1 /M/a => 1
        add 1 4 0 1 0 - 1 0 0 0 0 /R/a => 2
        add 1 4 0 1 0 - 1 1 0 0 0 /S/a => 3
        add 1 4 0 1 0 2 1 2 0 0 1 /T/a => 4
        cull => ok
        erasable => 00010
        erase 00110 => refused 11
        erase 01000 => refused 11
        order => ok
        erase 00010 => 4
        marks => 1 1 0
        list => 0 1 2 3
        compare 3 2 => Greater
        using 1 /R/a => -
        using 1 /T/a => 3
        chains => 1;2,3;;",
    );
}

#[test]
fn culling() {
    check(
        "init 0 0 /M/a => 0
        cull => ok
        add - 4 0 0 0 - 1 0 0 0 0 /R/a => 1
        cull => ok
        erasable => 00
        add - 0 0 0 0 - - 0 0 0 1 /M/a => 2
        add 2 1 0 0 0 - 1 0 0 0 0 /C/a => 3
        add 2 1 0 0 0 - 1 0 0 0 0 /C/b/a => 4
        cull => ok
        erasable => 01010
        using 0 /C/a => -
        using 0 /C/b/a => 4",
    );
}

#[test]
fn the_empty_snapshot() {
    check(
        "write => 00000003010000
        read 00000003010000 => 0
        marks => 0 0 0
        init 0 0 / => 0
        read 00000003010000 => 0
        compare 0 0 => refused 3",
    );
}

#[test]
fn snapshots_are_read_as_they_were_written() {
    let mut calls = Calls::default();
    let script = "init 1 2 /M\nadd - 0 9 1 2 - - 0 0 0 1 /M\nadd 1 6 248 4294967295 3 0 65535 4 5 6 0 /A{v=x}\norder";
    script.lines().for_each(|line| drop(calls.answer(line.as_bytes())));
    let (dump, written) = (calls.answer(b"dump").text(), calls.answer(b"write").text());
    assert_eq!(calls.answer(format!("read {written}").as_bytes()).text(), "3");
    assert_eq!(calls.answer(b"dump").text(), dump);
    assert_eq!(calls.answer(b"write").text(), written);
    assert_eq!(calls.answer(b"marks").text(), "0 0 1");
}

/// A snapshot of one record: arc, flags, parent, origin, depth, has-specs and path as given.
fn one_record(arc: u8, flags: u8, parent: u32, origin: u32, has_specs: u8, path: &str) -> String {
    let mut record = vec![arc, flags];
    record.extend([0; 8]);
    record.extend(parent.to_be_bytes());
    record.extend(origin.to_be_bytes());
    record.extend([0xff, 0xfe, 0, 1, 0, 2, 0, 3, has_specs]);
    record.extend(path.as_bytes());
    let mut bytes = (record.len() as u32 + 5).to_be_bytes().to_vec();
    bytes.extend([1, 0, 1]);
    bytes.extend((record.len() as u16).to_be_bytes());
    bytes.extend(record);
    format!("read {}", hex(&bytes))
}

#[test]
fn record_0() {
    let none = u32::MAX;
    let cases = [
        (one_record(0, 1, none, none, 1, "/"), "1"),
        (one_record(0, 253, none, none, 0, "/A"), "1"),
        (one_record(7, 1, none, none, 1, "/"), "refused 4"),
        (one_record(1, 1, none, none, 1, "//"), "refused 4"),
        (one_record(0, 0, none, none, 1, "/"), "refused 4"),
        (one_record(0, 1, 0, none, 1, "/"), "refused 4"),
        (one_record(0, 1, none, 0, 1, "/"), "refused 4"),
        (one_record(0, 3, none, none, 2, "//"), "refused 5"),
        (one_record(0, 3, none, none, 1, "/"), "refused 6"),
        (one_record(0, 1, none, none, 2, "/"), "refused 6"),
    ];
    for (line, expected) in &cases {
        assert_eq!(answers(line), [*expected], "{line}");
    }
    let free = format!("{}\ndump", cases[1].0);
    assert_eq!(answers(&free)[1], "0,253,0,0,-,-,65534,1,2,3,0,/A");
}

#[test]
fn the_depth_of_record_0_is_compared_as_stored() {
    // Two siblings with one R and other origins, 0 and 3: node 0 has the depth that is compared with node 3's.
    let script = |depth: &str| {
        let mut calls = Calls::default();
        let line = one_record(0, 1, u32::MAX, u32::MAX, 1, "/").replace("fffe", depth);
        calls.answer(line.as_bytes());
        let nodes = "add - 0 0 0 0 - 0 0 0 0 1 /\nadd 0 4 0 0 0 - 5 0 0 0 1 /\nadd 1 6 8 0 0 0 5 0 0 0 1 /a
add 1 6 8 0 0 2 5 0 0 0 1 /b\nadd 0 6 8 0 0 2 5 0 0 0 1 /c\nadd 1 6 8 0 0 5 5 0 0 0 1 /d\nsibling 4 6";
        nodes.lines().map(|line| calls.answer(line.as_bytes()).text()).last()
    };
    assert_eq!(script("0004").as_deref(), Some("Greater"));
    assert_eq!(script("0006").as_deref(), Some("Less"));
}

#[test]
fn adding_is_narrowed() {
    check(
        "add - 4 0 0 0 - - 0 0 0 1 /R => refused 3
        init 0 0 // => refused 5
        init 0 0 /M => 0
        init 0 0 /M => refused 3
        add 1 9 2 0 0 - - 0 0 0 2 // => refused 4
        add 0 9 2 0 0 1 - 0 0 0 2 // => refused 4
        add 0 9 2 0 0 0 - 0 0 0 2 // => refused 5
        add 0 7 0 0 0 - - 0 0 0 1 /R => refused 6
        add 0 4 2 0 0 - - 0 0 0 1 /R => refused 6
        add 0 4 0 0 0 - - 0 0 0 2 /R => refused 6
        add 0 4 0 0 0 - - 0 0 0 1 /R => 1
        add 1 0 0 0 0 - - 0 0 0 1 /R => refused 6
        add 0 0 0 0 0 1 - 0 0 0 1 /R => 2
        add - 0 0 0 0 - - 0 0 0 1 /R => refused 6
        add 4294967295 4 0 0 0 - 65535 0 0 0 1 /R => refused 4
        add - 4 0 0 0 4294967295 65535 0 0 0 1 /R => refused 4
        add - 4 0 0 0 - 65535 0 0 0 1 /R => 3",
    );
}

#[test]
fn deepening_and_seeding() {
    check(
        "deepen /a => refused 3
        seed /a => refused 3
        init 0 0 /M{v=x} => 0
        add - 0 0 0 0 - - 0 0 0 1 /M => 1
        deepen / => refused 5
        deepen /a{v=x} => refused 5
        order => ok
        deepen /M/a => ok
        marks => 1 1 0
        list => 0 1
        seed /M/a/b => ok
        marks => 1 1 0
        dump => 0,1,0,0,-,-,1,0,0,0,1,/M{v=x}a/b;0,0,0,0,0,0,1,0,0,0,1,/M/a/b
        add 0 4 0 0 0 - 9 0 0 0 1 /R => 2
        order => ok
        marks => 1 0 1
        deepen /c => ok
        marks => 0 0 1
        swap => ok
        list => 0 1
        dump => 0,1,0,0,-,-,1,0,0,0,1,/M{v=x}a;0,0,0,0,0,0,1,0,0,0,1,/M/a",
    );
}

#[test]
fn edges_of_paths() {
    let of = |length: usize| format!("/{}", "a".repeat(length - 1));
    check(&format!("init 0 0 {} => refused 5", of(256)));
    check(&format!(
        "init 0 0 {} => 0
        deepen /b => refused 7
        seed /b => refused 7
        add - 4 0 0 0 - - 0 0 0 1 {} => refused 5",
        of(255),
        of(256),
    ));
    check(&format!("init 0 0 {} => 0\ndeepen /b => ok\ndeepen /b => refused 7", of(253)));
}

#[test]
fn edges_of_graphs() {
    let mut calls = Calls::default();
    calls.answer(b"init 0 0 /");
    for number in 1..1_024 {
        assert_eq!(calls.answer(b"add - 4 0 0 0 - - 0 0 0 1 /").text(), number.to_string());
    }
    assert_eq!(calls.answer(b"add - 4 0 0 0 - - 0 0 0 1 /").text(), "refused 7");
    let written = calls.answer(b"write").text();
    assert_eq!(calls.answer(format!("read {written}").as_bytes()).text(), "1024");
    // Every path has 1 byte, then 32: the sum is just the limit.
    assert_eq!(calls.answer(b"deepen /a123456789b123456789c123456789d").text(), "ok");
    assert_eq!(calls.answer(b"deepen /a").text(), "refused 7");
}

#[test]
fn the_edge_of_snapshots() {
    let snapshot = |records: u16| {
        let mut bytes = vec![1];
        bytes.extend(records.to_be_bytes());
        for number in 0..records {
            let link = if number == 0 { [0xff; 4] } else { [0; 4] };
            let arc_and_flags = if number == 0 { [0, 1] } else { [4, 0] };
            bytes.extend([0, 28]);
            bytes.extend(arc_and_flags);
            bytes.extend([0; 8]);
            bytes.extend(link);
            bytes.extend(link);
            bytes.extend([0; 8]);
            bytes.extend([1, b'/']);
        }
        let mut all = (bytes.len() as u32).to_be_bytes().to_vec();
        all.extend(bytes);
        format!("read {}", hex(&all))
    };
    assert_eq!(answers(&snapshot(1_024)), ["1024"]);
    assert_eq!(answers(&snapshot(1_025)), ["refused 7"]);
    let one = snapshot(1);
    assert_eq!(answers(&one), ["1"]);
    assert_eq!(answers(&one[..one.len() - 2]), ["refused 12"]);
    assert_eq!(answers(&format!("{one}00")), ["refused 12"]);
    assert_eq!(answers(&one.replace("read 00000021", "read 00000022")), ["refused 12"]);
    assert_eq!(answers(&one.replace("21010001", "21020001")), ["refused 12"]);
    assert_eq!(answers(&one.replace("21010001", "21010002")), ["refused 12"]);
    assert_eq!(answers(&one.replace("0001001c", "0001001b")), ["refused 12"]);
}
