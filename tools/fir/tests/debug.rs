//! `fir debug` by scripted input: each command, and that going back is a run from the
//! start.

mod support;

use cases::image;
use generator::{accepted, entry, words};
use reference::Program;
use std::ffi::OsString;
use support::doubles::{debugged, doubles_and_one, printed, DOUBLES};
use support::{arguments, file, fir, fir_on};

#[test]
fn a_terminal_gets_a_prompt_for_each_command() {
    let file = file("debug", "doubles.fir", DOUBLES.as_bytes());
    let call = ["debug", &file, "0.0", "[5,6]"].map(OsString::from);
    let done = fir_on(&call, b"step\nquit\n", true);
    assert_eq!(done.text().matches("(fir) ").count(), 2, "{}", done.text());
    assert!(!debugged(&["step", "quit"]).text().contains("(fir) "));
}

#[test]
fn step_prints_what_it_did_and_where_the_run_stands() {
    let lines = printed(&["step", "s 2"]);
    assert_eq!(lines.len(), 5, "{lines:?}");
    assert!(
        lines[0].starts_with("     1   1  0.0   block 0  r1 = lit 0 "),
        "{lines:?}"
    );
    assert!(lines[0].ends_with(" r1 = 0"), "{lines:?}");
    let at = "doubles.fir:6:5: after 1 step, in 0.0, block 0: r2 = call 1.0(r0, r1)";
    assert_eq!(lines[1], at);
    assert!(lines[2].contains("opens call 1 of 1.0"), "{lines:?}");
    assert!(
        lines[4].starts_with("doubles.fir:13:5: after 3 steps, in 1.0, block 0: "),
        "{lines:?}"
    );
}

#[test]
fn call_shows_the_topmost_call_with_types() {
    let lines = printed(&["call"]);
    assert_eq!(
        lines,
        [
            "the topmost call is of 0.0",
            "  r0  own vector         [5, 6]",
            "  r1  int                empty",
            "  r2  int                empty",
        ]
    );
    let forced = printed(&["at 6", "t"]);
    assert_eq!(
        forced[1..],
        [
            "the topmost call is of 2.0; block 1 of call 1 is forced",
            "  r0  quiet promise      a promise, quiet",
            "  r1  int                empty",
        ],
        "while a block of 1.0 is forced"
    );
    assert_eq!(printed(&["run", "call"])[1..], ["no call is live"]);
}

#[test]
fn an_empty_line_repeats_the_last_command() {
    let lines = printed(&["", "step", "", "", "at 1", ""]);
    let moved = lines
        .iter()
        .filter(|line| line.contains(": after 3 steps, "));
    assert_eq!(moved.count(), 1, "{lines:?}");
    let at = lines
        .iter()
        .filter(|line| line.contains(": after 1 step, "));
    assert_eq!(at.count(), 3, "{lines:?}");
}

#[test]
fn next_goes_past_calls_and_out_leaves_them() {
    assert_eq!(
        printed(&["step", "n"])[2],
        "doubles.fir:7:5: after 11 steps, in 0.0, block 0: set r0[r1] = r2"
    );
    let lines = printed(&["to 2.0", "o", "out"]);
    assert_eq!(
        lines,
        [
            "doubles.fir:22:5: after 5 steps, in 2.0, block 0: r1 = force r0",
            "doubles.fir:15:5: after 9 steps, in 1.0, block 0: r3 = add r3, r3",
            "doubles.fir:7:5: after 11 steps, in 0.0, block 0: set r0[r1] = r2",
        ]
    );
}

#[test]
fn to_goes_to_a_line_or_a_version() {
    assert_eq!(
        printed(&["to 17", "to 7", "to 18", "to 3.0", "to 99", "to 17"]),
        [
            "doubles.fir:17:5: after 6 steps, in 1.0, block 1: r3 = get r0[r1]",
            "doubles.fir:7:5: after 11 steps, in 0.0, block 0: set r0[r1] = r2",
            "line 18 has no instruction and no block",
            "there is no version 3.0",
            "line 99 has no instruction and no block",
            "line 17 is not come to again; it was last at step 6, `at 6` goes there",
        ]
    );
}

#[test]
fn a_run_that_does_not_come_to_a_target_stays_where_it_was() {
    assert_eq!(
        printed(&["to 7", "to 7", "to 2.0", "to 0.0", "step", "run", "to 7"]),
        [
            "doubles.fir:7:5: after 11 steps, in 0.0, block 0: set r0[r1] = r2",
            "line 7 is not come to again; the run stands there",
            "version 2.0 is not entered again; it was last at step 5, `at 5` goes there",
            "version 0.0 is not entered again; it was last at step 0, `at 0` goes there",
            "    12   1  0.0   block 0  set r0[r1] = r2                      v0 = [10, 6]",
            "doubles.fir:4:3: after 12 steps, in 0.0, block 0: end -> r0",
            "DONE [10, 6] after 13 steps",
            "line 7 is not come to again; it was last at step 11, `at 11` goes there",
        ]
    );
}

#[test]
fn a_target_that_lies_behind_the_budget_is_not_come_to_within_it() {
    let file = file("debug", "doubles.fir", DOUBLES.as_bytes());
    let call = ["debug", &file, "0.0", "[5,6]", "--budget", "8"];
    let text = fir(&call, b"to 7\nto 1.0\nto 1.0\n").text();
    let lines: Vec<&str> = text.lines().skip(1).collect();
    assert_eq!(lines[0], "line 7 is not come to within 8 steps");
    assert!(lines[1].contains(": after 2 steps, in 1.0, "), "{text}");
    let stays = "version 1.0 is not entered again within 8 steps; the run stands there";
    assert_eq!(lines[2..], [stays]);
}

#[test]
fn run_ends_the_run_and_back_goes_back_by_steps() {
    assert_eq!(
        printed(&["run", "b", "back 7", "back 100", "back", "at 11", "at 1000", "r"]),
        [
            "DONE [10, 6] after 13 steps",
            "doubles.fir:4:3: after 12 steps, in 0.0, block 0: end -> r0",
            "doubles.fir:22:5: after 5 steps, in 2.0, block 0: r1 = force r0",
            "doubles.fir:5:5: after 0 steps, in 0.0, block 0: r1 = lit 0",
            "refused by 20 at 0: the run stands at its start, and no step lies behind it",
            "doubles.fir:7:5: after 11 steps, in 0.0, block 0: set r0[r1] = r2",
            "DONE [10, 6] after 13 steps",
            "DONE [10, 6] after 13 steps",
        ]
    );
}

#[test]
fn back_goes_back_from_an_end_and_no_further_than_the_start() {
    let none = "refused by 20 at 0: the run stands at its start, and no step lies behind it";
    assert_eq!(printed(&["back", "b 3"]), [none, none]);
    let lines = printed(&["step", "back", "back", "step"]);
    assert_eq!(
        lines[2],
        "doubles.fir:5:5: after 0 steps, in 0.0, block 0: r1 = lit 0"
    );
    assert_eq!(lines[3], none);
    assert_eq!(lines[4], lines[0], "the same step again");
    let deep = "version 0.0(r0: int) -> int\nlevel portal\nblock 0 quiet -> r0\nr0 = call 0.0(r0)";
    let file = file("debug", "deep.fir", deep.as_bytes());
    let text = fir(
        &["debug", &file, "0.0", "1"],
        b"run\nback\nstep 2\nback 31\nback\n",
    )
    .text();
    let stops: Vec<&str> = text
        .lines()
        .filter(|line| line.starts_with("DEEP"))
        .collect();
    assert_eq!(stops, ["DEEP after 31 steps", "DEEP after 31 steps"]);
    for after in ["after 30 steps", "after 0 steps"] {
        assert!(
            text.contains(&format!(": {after}, in 0.0, block 0: ")),
            "{text}"
        );
    }
    assert!(text.ends_with(&format!("{none}\n")), "{text}");
}

#[test]
fn a_change_is_taken_or_refused_and_a_run_goes_back_no_further() {
    let later = file("debug", "later.fir", doubles_and_one().as_bytes());
    let change = format!("change {later}");
    let none = |steps| {
        let words = "the run goes back no further than the change of its image";
        format!("refused by 20 at 0: {words} after {steps}")
    };
    let lines = printed(&[
        "s 3", &change, "back", "s", "b", "back 2", "at 2", "at 4", "c -",
    ]);
    let changed = "after 3 steps: goes on under later.fir";
    let stands = "later.fir:13:5: after 3 steps, in 1.0, block 0: r2 = prom 1";
    assert_eq!(lines[4..7], [changed, stands, &none("3 steps")]);
    assert_eq!(lines[9..12], [stands, &none("3 steps"), &none("3 steps")]);
    assert!(
        lines[12].contains("later.fir:14:5: after 4 steps, in 1.0,"),
        "{lines:?}"
    );
    assert_eq!(lines[13], "standard input holds the commands");
    let lines = printed(&["s 3", &change, "run"]);
    assert_eq!(lines[6], "DONE [12, 6] after 15 steps");
    let lines = printed(&["to 2.0", &change, "back", "change"]);
    let refused = "refused by 15 at 124 after 5 steps: 2.0 has a live call and differs:";
    assert!(lines[1].contains(refused), "{lines:?}");
    assert!(lines[2].contains(": after 5 steps, in 2.0, "), "{lines:?}");
    assert!(lines[3].contains(": after 4 steps, in 1.0, "), "{lines:?}");
    assert_eq!(lines[4], "`change` needs a file with an image");
    let lines = printed(&["change no-such-file.fir", "s"]);
    assert!(lines[0].starts_with("fir: no-such-file.fir: "), "{lines:?}");
    assert!(lines[3].contains(": after 1 step, "), "{lines:?}");
}

#[test]
fn the_stack_has_calls_and_forces_with_registers_and_names() {
    let lines = printed(&["to 17", "stack"]);
    let places = |line: &String| {
        let (before, behind) = line.split_once(" at ").unwrap_or((line, ""));
        let (_, behind) = behind.split_once(" (line ").unwrap_or(("", behind));
        format!("{before} {behind}")
    };
    let lines: Vec<String> = lines[1..].iter().map(places).collect();
    assert_eq!(
        lines,
        [
            "#3 force of p0, block 1 of call 1, 17): r3 = get r0[r1]",
            "#2 call 2 of 2.0, goes on 21): end -> r1",
            "     r0 = p0, r1 empty ",
            "#1 call 1 of 1.0, goes on 15): r3 = add r3, r3",
            "     r0 = v0 [5, 6], r1 = 0, r2 = p0, r3 empty, x0 = 0 ",
            "#0 call 0 of 0.0, goes on 7): set r0[r1] = r2",
            "     r0 = v0 [5, 6], r1 = 0, r2 empty ",
        ]
    );
    assert_eq!(printed(&["run", "k"])[1], "no call is live");
}

#[test]
fn vectors_are_shown_with_who_holds_them() {
    let lines = printed(&["to 1.0", "vectors", "run", "v"]);
    assert_eq!(
        lines[1..],
        [
            "vectors: 1 of 64",
            "v0 [5, 6]: r0 of call 0 (own), r0 of call 1 (borrow)",
            "DONE [10, 6] after 13 steps",
            "vectors: 0 of 64",
        ]
    );
}

#[test]
fn promises_are_shown_with_what_became_of_them() {
    let lines = printed(&["to 2.0", "promises", "s", "p", "to 21", "p"]);
    let shown: Vec<&String> = lines.iter().filter(|line| line.starts_with('p')).collect();
    assert_eq!(
        shown,
        [
            "promises: 1 of 64",
            "p0 block 1 of call 1, not forced yet: r2 of call 1, r0 of call 2",
            "promises: 1 of 64",
            "p0 block 1 of call 1, is being forced: r2 of call 1, r0 of call 2",
            "promises: 1 of 64",
            "p0 block 1 of call 1, gave 5: r2 of call 1, r0 of call 2",
        ]
    );
}

#[test]
fn list_shows_the_text_around_the_line() {
    let lines = printed(&["to 17", "list"]);
    assert_eq!(lines[1], "    12      store x0 = r1");
    assert_eq!(lines[6], ">   17      r3 = get r0[r1]");
    assert_eq!(lines[11], "    22      r1 = force r0");
    assert_eq!(lines.len(), 12, "{lines:?}");
    assert_eq!(printed(&["run", "l"])[1], "the run stands at no line");
}

#[test]
fn the_stack_has_the_names_that_people_type() {
    let stack = printed(&["s 3", "stack"]);
    assert_eq!(printed(&["s 3", "where"]), stack);
    assert_eq!(printed(&["s 3", "registers"]), stack);
}

#[test]
fn what_is_no_command_is_named_and_changes_nothing() {
    assert_eq!(
        printed(&[
            "jump", "to", "to x", "at", "step x", "next 3", "jump 3", "s 1 2", "b 0", "quit",
            "step"
        ]),
        [
            "`jump` is no command; `help` lists them",
            "`to` needs a line such as 12, or a version such as 1.0",
            "`x` is no line such as 12, and no version such as 1.0",
            "`at` needs a number of steps",
            "`x` is no number of steps",
            "`3` is one too many",
            "`jump` is no command; `help` lists them",
            "`2` is one too many",
            "`back` goes back by at least 1 step",
        ]
    );
}

#[test]
fn help_lists_every_command() {
    let lines = printed(&["help"]);
    for command in [
        "step", "next", "out", "to LINE", "to F.V", "run", "back", "at N", "change", "stack",
        "vectors", "promises", "list", "help", "quit", "watch",
    ] {
        let listed = lines
            .iter()
            .filter(|line| line.trim_start().starts_with(command));
        assert_eq!(listed.count(), 1, "{command}");
    }
}

#[test]
fn an_undefined_run_and_a_used_up_budget_say_so() {
    let file = file("debug", "doubles.fir", DOUBLES.as_bytes());
    let done = fir(&["debug", &file, "0.0", "[]"], b"run\nback\n");
    let text = done.text();
    let lines: Vec<&str> = text.lines().skip(1).collect();
    assert_eq!(lines[0], "UNDEF after 7 steps");
    assert!(
        lines[1].ends_with("r3 = get r0[r1]: index 0 is outside of v0 []"),
        "{text}"
    );
    assert!(
        lines[2].contains(": after 6 steps, in 1.0, block 1: "),
        "{text}"
    );
    let done = fir(
        &["debug", &file, "0.0", "[5]", "--budget=2"],
        b"run\nstep\n",
    );
    assert_eq!(
        done.text().matches("STEPS after 2 steps\n").count(),
        2,
        "{}",
        done.text()
    );
}

#[test]
fn bytes_are_shown_by_their_text() {
    let file = file("debug", "doubles.bin", &image(DOUBLES));
    let done = fir(&["debug", &file, "0.0", "[5,6]"], b"step\nlist\n");
    let line = format!("{file}, disassembled:6:5: after 1 step, in 0.0, block 0: ");
    assert!(done.text().contains(&line), "{done:?}");
    assert!(
        done.text()
            .contains("\n>    6      r2 = call 1.0(r0, r1)\n"),
        "{done:?}"
    );
}

#[test]
fn a_run_that_is_refused_and_an_image_on_standard_input_are_no_sessions() {
    let file = file("debug", "doubles.fir", DOUBLES.as_bytes());
    let done = fir(&["debug", &file, "7.0"], b"step\n");
    assert!(done.text().starts_with("refused by 11 at 0: "), "{done:?}");
    assert_eq!(done.status, 1);
    let done = fir(&["debug", "-", "0.0"], DOUBLES.as_bytes());
    assert!(
        done.errors.contains("holds the debugger's commands"),
        "{done:?}"
    );
    assert_eq!(done.status, 2);
}

/// How many generated programs are gone through.
const PROGRAMS: u64 = 300;

#[test]
fn going_back_gives_the_state_of_a_run_from_the_start() {
    let mut compared = 0;
    for seed in 0..PROGRAMS {
        let bytes = accepted(seed);
        let program = Program::accept(&bytes).expect("an accepted image");
        let Some(entry) = entry(seed, &program) else {
            continue;
        };
        let Some(given) = arguments(&words(seed, &program, entry)) else {
            continue;
        };
        let file = file("debug", "any.bin", &bytes);
        let name = format!("{}.{}", entry.0, entry.1);
        let mut call = vec!["debug", &file, &name, "--budget=60"];
        call.extend(given.iter().map(String::as_str));
        let shown = |moves: &str| {
            let input = format!("{moves}\nstack\nvectors\npromises\nlist\n");
            let text = fir(&call, input.as_bytes()).text();
            let stack = text.find("\n#").unwrap_or(text.len());
            text[stack..].to_string()
        };
        let back = shown("run\nback 9\nback 4");
        let steps = shown("run\nback 13");
        assert_eq!(back, steps, "seed {seed}");
        let one_by_one = shown(&format!("run{}", "\nback".repeat(13)));
        assert_eq!(one_by_one, steps, "seed {seed}");
        let ahead = shown("at 7");
        let there = shown("run\nat 7");
        assert_eq!(ahead, there, "seed {seed}");
        compared += usize::from(!ahead.is_empty());
    }
    println!("{compared} programs");
    assert!(compared > 100, "{compared}");
}
