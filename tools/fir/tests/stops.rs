//! `fir debug`: what is watched, printed and compared, and where breakpoints stop.

mod support;

use support::doubles::{doubles_and_one, printed};
use support::file;

#[test]
fn watch_goes_to_what_changes_a_register_a_name_or_an_item() {
    let lines = printed(&[
        "watch r2", "at 0", "w r0", "at 1", "s", "w x0", "w r3", "w r3",
    ]);
    assert_eq!(
        lines,
        [
            "r2 was nothing, and is 10",
            "doubles.fir:7:5: after 11 steps, in 0.0, block 0: set r0[r1] = r2",
            "doubles.fir:5:5: after 0 steps, in 0.0, block 0: r1 = lit 0",
            "r0 was v0 [5, 6], and is v0 [10, 6]",
            "doubles.fir:4:3: after 12 steps, in 0.0, block 0: end -> r0",
            "doubles.fir:6:5: after 1 step, in 0.0, block 0: r2 = call 1.0(r0, r1)",
            "     2   1  0.0   block 0  r2 = call 1.0(r0, r1)                opens call 1 of 1.0 with r0 = v0 [5, 6], r1 = 0",
            "doubles.fir:12:5: after 2 steps, in 1.0, block 0: store x0 = r1",
            "x0 was nothing, and is 0",
            "doubles.fir:13:5: after 3 steps, in 1.0, block 0: r2 = prom 1",
            "r3 was nothing, and is 5",
            "doubles.fir:16:3: after 7 steps, in 1.0, block 1: end -> r3",
            "r3 was 5, and is 10",
            "doubles.fir:11:3: after 10 steps, in 1.0, block 0: end -> r3",
        ]
    );
}

#[test]
fn what_cannot_be_watched_is_named() {
    assert_eq!(
        printed(&[
            "watch",
            "watch r16",
            "watch q1",
            "watch r3",
            "watch 5",
            "watch r0 r1"
        ]),
        [
            "`watch` needs a register such as r3, or a name such as x0",
            "`r16` is no register such as r3, and no name such as x0",
            "`q1` is no register such as r3, and no name such as x0",
            "0.0 declares no r3: its last register is r2",
            "5 never changes",
            "`r1` is one too many",
        ]
    );
}

#[test]
fn watch_goes_to_what_changes_an_item_and_to_the_end_of_its_call() {
    assert_eq!(
        printed(&["watch r0[0]", "watch r0[1]", "to 1.0"])[..4],
        [
            "r0[0] was 5, and is 10",
            "doubles.fir:4:3: after 12 steps, in 0.0, block 0: end -> r0",
            "its call has ended",
            "DONE [10, 6] after 13 steps",
        ]
    );
    let ended = printed(&["to 2.0", "watch r0"]);
    assert_eq!(
        ended[1..],
        [
            "its call has ended",
            "doubles.fir:15:5: after 9 steps, in 1.0, block 0: r3 = add r3, r3",
        ]
    );
}

#[test]
fn print_shows_what_something_holds_and_whether_a_condition_holds() {
    assert_eq!(
        printed(&[
            "to 16",
            "print r1",
            "i r0",
            "print r0[1]",
            "print r0[r1]",
            "print r0[2]",
            "print r2",
            "print r3",
            "print x0",
            "print x1",
            "print -7",
        ])[1..],
        [
            "r1 = 0",
            "r0 = v0 [5, 6]",
            "r0[1] = 6",
            "r0[r1] = 5",
            "r0[2]: there is no such item",
            "r2 = p0",
            "r3 = 5",
            "x0 = 0",
            "x1 is empty",
            "-7 = -7",
        ]
    );
}

#[test]
fn print_says_whether_a_condition_holds() {
    assert_eq!(
        printed(&[
            "to 16",
            "print r3 > 4",
            "print r3>5",
            "print r3 >= 5 and r0[1] != 6",
            "print 5 <= r3",
            "print r3 = 5",
            "print r0 == r0",
            "print x1 < 1",
            "print r3 < 6 and r1 == 0",
        ])[1..],
        [
            "r3 > 4: holds",
            "r3 > 5: does not hold",
            "r3 >= 5 and r0[1] != 6: does not hold",
            "5 <= r3: holds",
            "r3 == 5: holds",
            "r0 == r0: does not hold",
            "x1 < 1: does not hold",
            "r3 < 6 and r1 == 0: holds",
        ],
        "vectors and what is empty are compared with nothing"
    );
    assert_eq!(printed(&["run", "print r1"])[1..], ["no call is live"]);
}

#[test]
fn what_is_no_operand_and_no_condition_is_named() {
    let what = "expected a register such as r3 or its name, a name such as x0, an item such as \
                r1[0], or an integer, found";
    assert_eq!(
        printed(&[
            "print",
            "print ?",
            "print r1[",
            "print r1[0",
            "print r9",
            "print r1 <",
            "print r1 < 2 or",
            "print r1 ! 2",
            "print q < 1",
            "print r1 2",
        ]),
        [
            "`print` needs a register such as r3, or a name such as x0",
            &format!("{what} `?`"),
            &format!("{what} the end of the line"),
            "expected `]`, found the end of the line",
            "0.0 declares no r9: its last register is r2",
            &format!("{what} the end of the line"),
            "expected `and` or nothing more, found `or`",
            "expected one of < <= > >= == !=, found `!`",
            "`q` is no register such as r3, and no name such as x0",
            "`2` is one too many",
        ]
    );
}

#[test]
fn a_run_stops_at_a_breakpoint_at_which_its_condition_holds() {
    assert_eq!(
        printed(&["break 15", "break 2.0", "run", "run", "run"]),
        [
            "breakpoint 1: line 15",
            "breakpoint 2: version 2.0",
            "breakpoint 2",
            "doubles.fir:22:5: after 5 steps, in 2.0, block 0: r1 = force r0",
            "breakpoint 1",
            "doubles.fir:15:5: after 9 steps, in 1.0, block 0: r3 = add r3, r3",
            "DONE [10, 6] after 13 steps",
        ]
    );
    assert_eq!(
        printed(&["br 15 if r3 > 5", "break 15 if r3 == 5 and r1 < 1", "run"]),
        [
            "breakpoint 1: line 15 if r3 > 5",
            "breakpoint 2: line 15 if r3 == 5 and r1 < 1",
            "breakpoint 2",
            "doubles.fir:15:5: after 9 steps, in 1.0, block 0: r3 = add r3, r3",
        ]
    );
    assert_eq!(
        printed(&["break 1.0 if r1 == 1", "run"])[1],
        "DONE [10, 6] after 13 steps"
    );
}

#[test]
fn next_out_to_and_watch_stop_at_breakpoints_and_step_back_and_at_do_not() {
    let stopped = [
        "breakpoint 1",
        "doubles.fir:17:5: after 6 steps, in 1.0, block 1: r3 = get r0[r1]",
    ];
    for order in ["to 7", "watch r2"] {
        assert_eq!(printed(&["break 17", order])[1..], stopped, "{order}");
    }
    assert_eq!(printed(&["break 17", "at 1", "next"])[2..], stopped);
    assert_eq!(printed(&["break 17", "at 2", "out"])[2..], stopped);
    let passed = printed(&["break 17", "step 7", "at 9", "back 2"]);
    assert!(
        !passed.iter().any(|line| line == "breakpoint 1"),
        "{passed:?}"
    );
    let again = printed(&["break 17", "run", "back 2", "run"]);
    assert_eq!(
        again[4..],
        stopped,
        "a run that went back comes to it again"
    );
}

#[test]
fn breakpoints_are_listed_deleted_and_kept_by_a_change() {
    assert_eq!(
        printed(&[
            "break",
            "break 7",
            "break 1.0",
            "delete 1",
            "break",
            "d 1",
            "d x",
            "delete",
            "break"
        ]),
        [
            "no breakpoint is set",
            "breakpoint 1: line 7",
            "breakpoint 2: version 1.0",
            "breakpoint 1 is gone",
            "breakpoint 2: version 1.0",
            "there is no breakpoint 1",
            "`x` is no number of a breakpoint",
            "no breakpoint is set any more",
            "no breakpoint is set",
        ]
    );
    let later = file("debug", "later.fir", doubles_and_one().as_bytes());
    let lines = printed(&["break 7", &format!("change {later}"), "run"]);
    assert_eq!(lines[3], "breakpoint 1");
    assert!(
        lines[4].starts_with("later.fir:7:5: after 13 steps"),
        "{lines:?}"
    );
}

#[test]
fn a_breakpoint_that_is_not_there_or_not_in_form_is_named() {
    assert_eq!(
        printed(&[
            "break 18",
            "break 3.0",
            "break x",
            "break 7 r2 > 1",
            "break 7 if",
            "break 7 if r3 > 1",
            "break 1.0 if hot > 1",
            "break",
        ]),
        [
            "line 18 has no instruction and no block",
            "there is no version 3.0",
            "`x` is no line such as 12, and no version such as 1.0",
            "expected `if`, found `r2`",
            "expected a register such as r3 or its name, a name such as x0, an item such as \
             r1[0], or an integer, found the end of the line",
            "0.0 declares no r3: its last register is r2",
            "`hot` is no register such as r3, and no name such as x0",
            "no breakpoint is set",
        ]
    );
}
