//! `save` and `restore`: what comes back, and where; `rubbish`: what is refused, and what fills it.

use super::check;

#[test]
fn a_graph_that_was_saved_is_restored() {
    check(
        "init 0 0 /M => 0
        add 0 4 0 0 0 - 1 0 0 0 1 /R => 1
        add 0 1 0 0 0 - 1 0 0 0 1 /C => 2
        save => ok
        order => ok
        erase 001 => 2
        deepen /a => ok
        dump => 0,1,0,0,-,-,1,0,0,0,1,/M/a;4,0,0,0,0,0,1,0,0,0,1,/R/a
        restore => ok
        dump => 0,1,0,0,-,-,1,0,0,0,1,/M;4,0,0,0,0,0,1,0,0,0,1,/R;1,0,0,0,0,0,1,0,0,0,1,/C
        chains => 1,2;;
        marks => 0 0 0
        list => refused 10
        cull => ok
        restore => ok
        chains => 1,2;;",
    );
}

#[test]
fn an_order_is_restored_with_its_marks() {
    check(
        "init 0 0 /M => 0
        add 0 4 0 0 0 - 1 0 0 0 1 /R => 1
        add 0 1 0 0 0 - 1 0 0 0 1 /C => 2
        order => ok
        save => ok
        add 0 2 0 0 0 - 1 0 0 0 1 /V => 3
        marks => 0 0 0
        restore => ok
        marks => 1 1 0
        list => 0 2 1
        chains => 2,1;;",
    );
}

/// Ordered, but not finalized, since it is shallow: a mark that the Rust does not keep.
#[test]
fn a_shallow_order_is_restored() {
    check(
        "init 0 0 /A => 0
        add 0 4 0 0 0 - 0 0 0 0 1 /R => 1
        add 0 4 0 0 0 - 2 0 0 0 1 /S => 2
        order => ok
        marks => 1 0 1
        save => ok
        deepen /a => ok
        marks => 0 0 1
        restore => ok
        marks => 1 0 1
        list => 0 2 1",
    );
}

#[test]
fn where_nothing_was_saved_the_empty_graph_is_restored() {
    check(
        "init 0 0 /M => 0
        restore => ok
        compares => refused 3
        marks => 0 0 0
        init 0 0 /N => 0
        save => ok
        new => ok
        init 0 0 /M => 0
        restore => ok
        compares => refused 3",
    );
}

#[test]
fn a_saved_graph_is_restored_into_the_other_arena() {
    check(
        "init 0 0 /M => 0
        save => ok
        deepen /a => ok
        swap => ok
        compares => refused 3
        restore => ok
        dump => 0,1,0,0,-,-,1,0,0,0,1,/M
        deepen /b => ok
        swap => ok
        dump => 0,1,0,0,-,-,1,0,0,0,1,/M/a
        restore => ok
        dump => 0,1,0,0,-,-,1,0,0,0,1,/M
        swap => ok
        dump => 0,1,0,0,-,-,1,0,0,0,1,/M/b",
    );
}

/// Every call that works on a graph is refused 2, whatever else is wrong with it.
#[test]
fn rubbish_holds_no_graph() {
    let calls = "init 0 0 /M
        init 0 0 M
        add - 0 0 0 0 - - 0 0 0 1 /M
        add 9 9 9 9 9 9 9 9 9 9 9 /M
        write
        dump
        chains
        marks
        compare 0 0
        sibling 0 1
        compares
        ancestor 0 0
        site 0 0
        propagated 0
        copy 0
        class 0
        order
        list
        cull
        erasable
        erase 2
        deepen /
        seed /a
        using 0 /M
        below 0
        intro 0
        mark 9 255
        spec 9 -
        specs 9 0
        restrict 9 0
        due 9
        introduced 9";
    for call in calls.lines() {
        check(&format!("rubbish => ok\n{} => refused 2", call.trim()));
    }
    check("rubbish => ok\npath /A => 1 / A\nback 1 /A => /\njoin /A /B => /A/B\nadd => bad line");
}

/// Reading and seeding fill it, a refused call leaves it.
#[test]
fn rubbish_is_filled() {
    check(
        "rubbish => ok
        read 00 => refused 12
        marks => refused 2
        read 00000003010000 => 0
        marks => 0 0 0
        rubbish => ok
        swap => ok
        init 0 0 /M => 0
        seed / => refused 5
        seed /a => ok
        dump => 0,1,0,0,-,-,1,0,0,0,1,/M/a
        chains => 
        swap => ok
        dump => 0,1,0,0,-,-,1,0,0,0,1,/M",
    );
}

#[test]
fn rubbish_is_saved_as_a_graph_is() {
    check(
        "rubbish => ok
        save => ok
        new => ok
        restore => ok
        marks => 0 0 0
        rubbish => ok
        save => ok
        read 00000003010000 => 0
        restore => ok
        list => refused 2
        swap => ok
        list => refused 3",
    );
}
