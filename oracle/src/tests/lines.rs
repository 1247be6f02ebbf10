//! Lines that write a call, and lines that write none.

use super::{answers, check};

#[test]
fn bad_lines() {
    let bad = [
        " ", "  ", "frob", "NEW", "new ", " new", "new  ", "path", "path ", "path  /", "path / /", "back 1", "back  /",
        "back 1  /", "back -1 /", "back +1 /", "back 65536 /", "back - /", "join /", "init 0 0", "init 0 4294967296 /",
        "init - 0 /", "add", "add - 0 0 0 0 - - 0 0 0 1", "add - 0 0 0 0 - - 0 0 0 1 / /",
        "add - 256 0 0 0 - - 0 0 0 1 /", "add - 0 256 0 0 - - 0 0 0 1 /", "add - 0 0 - 0 - - 0 0 0 1 /",
        "add 4294967296 0 0 0 0 - - 0 0 0 1 /", "add - 0 0 0 0 - 65536 0 0 0 1 /", "add - 0 0 0 0 - - 65536 0 0 1 /",
        "add - 0 0 0 0 - - 0 65536 0 1 /", "add - 0 0 0 0 - - 0 0 65536 1 /", "add - 0 0 0 0 - - 0 0 0 256 /",
        "add - 0 0 0 0 - - 0 0 0 - /", "read", "read ", "read 0", "read 0g", "read 0A", "read 00 00", "write 1",
        "compare 0", "compare 0 4294967296", "compare - 0", "sibling 0 0 0", "erase", "erase ", "erase -", "erase 0x",
        "erase 0 1", "cull 1", "erasable 0", "below -", "below", "intro x", "using 0", "using - /", "order\r",
        "list\t", "swap swap", "save 1", "save ", "restore 0", "restored", "Save", "mark 0", "mark 0 256", "mark 0 -",
        "mark - 0", "mark 4294967296 0", "mark 0 0 0", "spec 0", "spec 0 65536", "spec 0 x", "spec - 0", "specs 0",
        "specs 0 2", "specs 0 -", "specs 0 01", "restrict 0", "restrict 0 65536", "restrict 0 -", "due", "due -",
        "due 0 0", "due 4294967296", "introduced", "introduced -", "introduced 0 0",
    ];
    for line in bad {
        assert_eq!(answers(line), ["bad line"], "{line:?}");
    }
    assert_eq!(answers(&format!("erase {}", "0".repeat(1_025))), ["bad line"]);
    assert_eq!(answers(&format!("erase {}", "9".repeat(1_024))), ["refused 3"]);
}

#[test]
fn numbers() {
    check(
        "back 00000000000000000000001 /A/B => /A
        back 65535 /A => /
        init 4294967295 00 /A => 0
        using 4294967295 /A => -
        add 0000 04 000 0 0 00 0065535 65535 65535 65535 01 /A => 1
        dump => 0,1,4294967295,0,-,-,1,0,0,0,1,/A;4,0,0,0,0,0,65535,65535,65535,65535,1,/A",
    );
}

#[test]
fn empty_graphs() {
    let refused = [
        "compare 0 0", "sibling 0 0", "compares", "order", "list", "cull", "erasable", "erase 1", "deepen //",
        "seed //", "using 0 //", "below 0", "intro 0", "add 9 9 0 0 0 9 - 0 0 0 1 //", "mark 9 255", "mark 0 0",
        "spec 9 -", "spec 0 0", "specs 9 0", "restrict 9 0", "due 9", "introduced 9",
        "add 4294967295 4 0 0 0 - - 0 0 0 1 /",
    ];
    for line in refused {
        assert_eq!(answers(line), ["refused 3"], "{line}");
    }
    let accepted = [("dump", ""), ("chains", ""), ("marks", "0 0 0"), ("swap", "ok"), ("new", "ok")];
    for (line, answer) in accepted {
        assert_eq!(answers(line), [answer], "{line}");
    }
}

#[test]
fn erase_sets_of_other_lengths() {
    let grown = "init 0 0 /\nadd 0 4 0 0 0 - - 0 0 0 1 /\nadd 0 4 0 0 0 - - 0 0 0 1 /\n";
    let erased = |bits: &str| answers(&format!("{grown}erase {bits}"))[3].clone();
    assert_eq!(erased("0"), "3");
    assert_eq!(erased("01"), "2");
    assert_eq!(erased("0111111"), "1");
    assert_eq!(erased("1"), "refused 11");
    assert_eq!(erased("002"), "refused 11");
    assert_eq!(erased("0002"), "3");
    assert_eq!(erased("00129"), "2");
}

#[test]
fn a_refused_seed_does_not_swap() {
    check(
        "init 0 0 /M => 0
        swap => ok
        seed /a => refused 3
        init 0 0 /N => 0
        swap => ok
        seed / => refused 5
        using 0 /M => -
        dump => 0,1,0,0,-,-,1,0,0,0,1,/M",
    );
}
