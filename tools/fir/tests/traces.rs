//! `fir trace`: a line for each step, with all that changed.

mod support;

use cases::image;
use support::{fir, UNDEF};

/// Asserts what a trace of version 0.0 prints, spaces in a row taken as one.
#[track_caller]
fn traces(text: &str, arguments: &[&str], lines: &[&str]) {
    let call = [&["trace", "-", "0.0"], arguments].concat();
    let done = fir(&call, &image(text));
    assert_eq!(done.errors, "");
    let text = done.text();
    let found: Vec<String> = text
        .lines()
        .map(|line| line.split_whitespace().collect::<Vec<_>>().join(" "))
        .collect();
    assert_eq!(found, lines);
}

#[test]
fn a_line_has_its_columns() {
    let identity = image("version 0.0(r0: int) -> int\nblock 0 quiet -> r0\nr0 = lit 5");
    assert_eq!(
        fir(&["trace", "-", "0.0", "7"], &identity).text(),
        "     1   1  0.0   block 0  r0 = lit 5                           r0 = 5\n     \
              2   1  0.0   block 0  end -> r0                            ends call 0 with 5\n\
         DONE 5 after 2 steps\n"
    );
}

#[test]
fn registers_names_and_vectors_that_change_are_shown() {
    traces(
        "version 0.0(r0: int, r1: own vector) -> own vector
           registers r2: own vector, r3: int, r4: value
           block 0 quiet -> r2
             r3 = lit 1
             r3 = lit 1
             store x4 = r3
             r4 = named x4
             set r1[r0] = r3
             set r1[r0] = r3
             r2 = use r1",
        &["0", "[8,9]"],
        &[
            "1 1 0.0 block 0 r3 = lit 1 r3 = 1",
            "2 1 0.0 block 0 r3 = lit 1 r3 stays 1",
            "3 1 0.0 block 0 store x4 = r3 x4 = 1",
            "4 1 0.0 block 0 r4 = named x4 r4 = 1",
            "5 1 0.0 block 0 set r1[r0] = r3 v0 = [1, 9]",
            "6 1 0.0 block 0 set r1[r0] = r3 nothing changes",
            "7 1 0.0 block 0 r2 = use r1 r1 empty, r2 = v0 [1, 9]",
            "8 1 0.0 block 0 end -> r2 ends call 0 with v0 [1, 9]",
            "DONE [1, 9] after 8 steps",
        ],
    );
}

#[test]
fn calls_and_forces_that_open_and_end_are_shown() {
    traces(
        "version 0.0(r0: int) -> int
           registers r1: quiet promise, r2: int, r3: vector
           block 0 quiet -> r2
             r3 = vec [r0]
             r1 = prom 1
             r2 = call 1.0(r3, r1)
             r2 = force r1
           block 1 quiet -> r2
             r2 = add r0, r0
         version 1.0(r0: borrow vector, r1: quiet promise) -> int
           registers r2: int
           block 0 quiet -> r2
             r2 = force r1",
        &["4"],
        &[
            "1 1 0.0 block 0 r3 = vec [r0] r3 = v0 [4]",
            "2 1 0.0 block 0 r1 = prom 1 r1 = p0, p0 is block 1 of call 0",
            "3 1 0.0 block 0 r2 = call 1.0(r3, r1) opens call 1 of 1.0 with r0 = v0 [4], r1 = p0",
            "4 2 1.0 block 0 r2 = force r1 forces p0 in block 1 of call 0",
            "5 3 0.0 block 1 r2 = add r0, r0 r2 = 8",
            "6 3 0.0 block 1 end -> r2 ends the force of p0 with 8, call 1: r2 = 8, p0 gave 8",
            "7 2 1.0 block 0 end -> r2 ends call 1 with 8",
            "8 1 0.0 block 0 r2 = force r1 r2 stays 8",
            "9 1 0.0 block 0 end -> r2 ends call 0 with 8",
            "DONE 8 after 9 steps",
        ],
    );
}

#[test]
fn what_changes_in_another_call_is_shown_with_it() {
    traces(
        "version 0.0(r0: int) -> int
           registers r1: reflective promise
           block 0 reflective -> r0
             r1 = prom 1
             r0 = call 1.0(r1, r0)
           block 1 reflective -> r0
         version 1.0(r0: reflective promise, r1: int) -> int
           block 0 reflective -> r1
             poke r0.x2 = r1",
        &["4"],
        &[
            "1 1 0.0 block 0 r1 = prom 1 r1 = p0, p0 is block 1 of call 0",
            "2 1 0.0 block 0 r0 = call 1.0(r1, r0) opens call 1 of 1.0 with r0 = p0, r1 = 4",
            "3 2 1.0 block 0 poke r0.x2 = r1 call 0: x2 = 4",
            "4 2 1.0 block 0 end -> r1 ends call 1 with 4",
            "5 1 0.0 block 0 end -> r0 ends call 0 with 4",
            "DONE 4 after 5 steps",
        ],
    );
}

#[test]
fn dispatch_shows_the_version_that_it_picked() {
    traces(
        "version 0.0(r0: value) -> int
           registers r1: int
           block 0 quiet -> r1
             r1 = dispatch 1(r0: value) -> int quiet
         version 1.0(r0: int) -> int
           block 0 quiet -> r0
         version 1.1(r0: vector) -> int
           registers r1: int
           block 0 quiet -> r1
             r1 = len r0",
        &["[5,6]"],
        &[
            "1 1 0.0 block 0 r1 = dispatch 1(r0: value) -> int quiet looked at 2 of 2, opens call 1 of 1.1 with r0 = v0 [5, 6]",
            "2 2 1.1 block 0 r1 = len r0 r1 = 2",
            "3 2 1.1 block 0 end -> r1 ends call 1 with 2, call 0: r1 = 2",
            "4 1 0.0 block 0 end -> r1 ends call 0 with 2",
            "DONE 2 after 4 steps",
        ],
    );
}

#[test]
fn dispatch_without_a_fit_has_looked_at_all() {
    traces(
        "version 0.0(r0: int) -> int
           block 0 quiet -> r0
             r0 = dispatch 1(r0: int) -> int quiet
             r0 = dispatch 1(r0: int, r0: int) -> int quiet
         version 1.0(r0: int) -> int
           block 0 quiet -> r0
         version 1.1(r0: vector) -> int
           registers r1: int
           block 0 quiet -> r1
             r1 = len r0
         version 1.2() -> int
           registers r0: int
           block 0 quiet -> r0
             r0 = lit 1",
        &["4"],
        &[
            "1 1 0.0 block 0 r0 = dispatch 1(r0: int) -> int quiet looked at 1 of 3, opens call 1 of 1.0 with r0 = 4",
            "2 2 1.0 block 0 end -> r0 ends call 1 with 4",
            "3 1 0.0 block 0 r0 = dispatch 1(r0: int, r0: int) -> int quiet looked at 3 of 3, UNDEF: no version of function 1 fits: 1.0 has 1 parameter, and 2 arguments are given; 1.1 has 1 parameter, and 2 arguments are given; 1.2 has 0 parameters, and 2 arguments are given",
            "UNDEF after 3 steps",
            "at 34 in 0.0, block 0: r0 = dispatch 1(r0: int, r0: int) -> int quiet: no version of function 1 fits: 1.0 has 1 parameter, and 2 arguments are given; 1.1 has 1 parameter, and 2 arguments are given; 1.2 has 0 parameters, and 2 arguments are given",
        ],
    );
}

#[test]
fn a_skip_shows_whether_it_skips() {
    let text = "version 0.0(r0: int) -> int
                  block 0 quiet -> r0
                    skip 0 unless r0
                    skip 2 unless r0
                    r0 = lit 0
                    skip 0 unless r0";
    traces(
        text,
        &["7"],
        &[
            "1 1 0.0 block 0 skip 0 unless r0 does not skip",
            "2 1 0.0 block 0 skip 2 unless r0 does not skip",
            "3 1 0.0 block 0 r0 = lit 0 r0 = 0",
            "4 1 0.0 block 0 skip 0 unless r0 skips 0",
            "5 1 0.0 block 0 end -> r0 ends call 0 with 0",
            "DONE 0 after 5 steps",
        ],
    );
    traces(
        text,
        &["0"],
        &[
            "1 1 0.0 block 0 skip 0 unless r0 skips 0",
            "2 1 0.0 block 0 skip 2 unless r0 skips 2",
            "3 1 0.0 block 0 end -> r0 ends call 0 with 0",
            "DONE 0 after 3 steps",
        ],
    );
}

#[test]
fn a_stop_and_a_used_up_budget_end_the_trace() {
    let text = "version 0.0(r0: int) -> int\nblock 0 quiet -> r0\nr0 = call 0.0(r0)";
    let done = fir(&["trace", "-", "0.0", "1"], &image(text));
    let text_of = done.text();
    let lines: Vec<&str> = text_of.lines().collect();
    assert_eq!(lines.len(), 33, "31 steps, the end, and where it stands");
    assert_eq!(lines[31], "DEEP after 31 steps");
    traces(
        text,
        &["1", "--budget", "1"],
        &[
            "1 1 0.0 block 0 r0 = call 0.0(r0) opens call 1 of 0.0 with r0 = 1",
            "STEPS after 1 step",
            "at 23 in 0.0, block 0: r0 = call 0.0(r0)",
        ],
    );
    let at_start = [
        "STEPS after 0 steps",
        "at 23 in 0.0, block 0: r0 = call 0.0(r0)",
    ];
    traces(text, &["1", "--budget", "0"], &at_start);
}

/// Asserts why an instruction makes UNDEF, with the integer 3 and the vector [1].
#[track_caller]
fn undefined(instructions: &str, cause: &str) {
    let text = format!(
        "version 0.0(r0: int, r1: vector) -> int
           registers r2: int, r3: value, r4: quiet promise, r5: reflective promise, r6: vector
           block 0 reflective -> r0
             {instructions}"
    );
    let done = fir(&["trace", "-", "0.0", "3", "[1]"], &image(&text));
    let text = done.text();
    let words = format!("UNDEF: {cause}");
    assert!(text.lines().any(|line| line.ends_with(&words)), "{text}");
    let last = text.lines().last().unwrap_or_default();
    assert!(last.ends_with(&format!(": {cause}")), "{text}");
    assert_eq!(done.status, UNDEF);
}

#[test]
fn each_cause_of_undef_is_named() {
    let greatest = "r2 = lit 9223372036854775807\n";
    let least = "r2 = lit -9223372036854775808\n";
    undefined("r2 = lit 0\nr0 = div r0, r2", "3 is divided by 0");
    undefined(
        &format!("{greatest}r0 = add r2, r0"),
        "9223372036854775807 + 3 is out of range",
    );
    undefined(
        &format!("{least}r0 = sub r2, r0"),
        "-9223372036854775808 - 3 is out of range",
    );
    undefined(
        &format!("{greatest}r0 = mul r2, r0"),
        "9223372036854775807 * 3 is out of range",
    );
    undefined(
        &format!("{least}r0 = lit -1\nr0 = div r2, r0"),
        "-9223372036854775808 / -1 is out of range",
    );
    undefined("r0 = get r1[r0]", "index 3 is outside of v0 [1]");
    undefined(
        "r3 = move r0\nr6 = cast r3",
        "r3 holds 3, which is not of r6's kind",
    );
    undefined("r3 = named x5", "x5 is not set");
    undefined(
        "r5 = prom 1\nr3 = peek r5.x1\nblock 1 quiet -> r0",
        "x1 of call 0 is not set",
    );
    undefined(
        "r4 = prom 1\nr0 = force r4\nblock 1 quiet -> r0\nr0 = dispatch 0() -> int quiet",
        "no version of function 0 fits: 0.0 has 2 parameters, and 0 arguments are given",
    );
}

/// Asserts why the versions of function 1 do not fit a quiet DISPATCH on the value 7.
#[track_caller]
fn unfit(versions: &str, reasons: &[&str]) {
    let text = format!(
        "version 0.0(r0: value) -> int
           registers r1: int
           level portal
           block 0 quiet -> r1
             r1 = dispatch 1(r0: value) -> int quiet
         {versions}\n"
    );
    let done = fir(&["run", "-", "0.0", "7"], text.as_bytes());
    let cause = format!(": no version of function 1 fits: {}\n", reasons.join("; "));
    assert!(done.text().ends_with(&cause), "{}", done.text());
}

#[test]
fn each_version_that_does_not_fit_a_dispatch_is_named_with_its_reason() {
    unfit(
        "version 1.0(r0: vector) -> int
           registers r1: int
           level staff
           block 0 quiet -> r1
             r1 = len r0
         version 1.1(r0: int, r1: int) -> int
           level portal
           block 0 quiet -> r0
         version 1.2(r0: borrow vector) -> int
           registers r1: int
           level portal
           block 0 quiet -> r1
             r1 = len r0",
        &[
            "1.0 is of level staff, above portal",
            "1.1 has 2 parameters, and 1 argument is given",
            "1.2 takes a borrowed vector as r0, and is given a value",
        ],
    );
    unfit(
        "version 1.0(r0: int) -> vector
           registers r1: vector
           level portal
           block 0 quiet -> r1
             r1 = vec [r0]
         version 1.1(r0: int) -> int
           level portal
           block 0 reflective -> r0
         version 1.2(r0: vector) -> int
           registers r1: int
           level portal
           block 0 quiet -> r1
             r1 = len r0",
        &[
            "1.0 returns a shared vector, and an integer is asked for",
            "1.1 is reflective, and the DISPATCH is quiet",
            "1.2 takes a shared vector as r0, and r0 holds 7",
        ],
    );
}

#[test]
fn a_force_of_a_promise_that_is_being_forced_is_named() {
    let text = "version 0.0(r0: int) -> int
           registers r1: reflective promise
           block 0 reflective -> r0
             r1 = prom 1
             r1 = prom 2
             r0 = force r1
           block 1 quiet -> r0
           block 2 reflective -> r0
             r0 = force r1";
    let done = fir(&["run", "-", "0.0", "1"], &image(text));
    let expected =
        "UNDEF after 4 steps\n  at 56 in 0.0, block 2: r0 = force r1: p1 is being forced\n";
    assert_eq!(done.text(), expected);
}
