//! The words of refusals by questions 9 and 10: effects and flow.

mod support;

use cases::image;
use support::{file, fir, refused};

#[test]
fn question_9_names_the_instruction_that_is_reflective() {
    let quiet = |instruction: &str, words: &str| {
        refused(
            &image(&format!(
                "version 0.0(r0: int, r1: reflective promise, r2: value) -> int
                   block 0 quiet -> r0
                     r0 = lit 1
                     {instruction}
                 version 1.0(r0: int) -> int
                   block 0 reflective -> r0"
            )),
            &format!("refused by 9 at 18: BLOCK 0 is quiet, but {words}"),
        );
    };
    quiet("r2 = peek r1.x0", "PEEK at 38 is reflective");
    quiet("poke r1.x0 = r2", "POKE at 38 is reflective");
    quiet(
        "r0 = force r1",
        "FORCE at 38 is reflective: r1 is a reflective promise",
    );
    quiet(
        "r0 = call 1.0(r0)",
        "CALL of 1.0 at 38 is reflective: its block 0 is reflective",
    );
    quiet(
        "r0 = dispatch 1(r0: int) -> int reflective",
        "DISPATCH of function 1 at 38 is reflective: its mark says so",
    );
}

/// Asserts the words for a body that question 10 refuses: VERSION at 0 with
/// four registers, BLOCK at 14, the first instruction at 21.
#[track_caller]
fn flows(body: &str, words: &str) {
    refused(
        &image(&format!(
            "version 0.0(r0: own vector, r1: int) -> int
               registers r2: int, r3: quiet promise
               block 0 quiet -> r1
                 {body}
             version 1.0(r0: own vector) -> int
               registers r1: int
               block 0 quiet -> r1
                 r1 = lit 0"
        )),
        &format!("refused by 10 at 0: in VERSION 0.0, {words}"),
    );
}

#[test]
fn question_10_names_what_is_read_before_it_is_assigned() {
    flows(
        "r1 = add r1, r2",
        "r2 is read by ARITH add at 26 before it is assigned",
    );
    flows(
        "r3 = prom 1\nblock 1 quiet -> r1\nr1 = add r2, r1",
        "r2 is read by ARITH add at 39 in block 1, and not assigned before PROM at 26",
    );
    refused(
        &image("version 0.0(r0: int) -> int\nregisters r1: int\nblock 0 quiet -> r1"),
        "refused by 10 at 0: in VERSION 0.0, r1 is read by the end of BLOCK 0 at 17 before it is assigned",
    );
}

#[test]
fn question_10_names_what_only_a_forced_block_assigns() {
    flows(
        "r3 = prom 1\nr1 = force r3\nr1 = add r2, r1\nblock 1 quiet -> r2\nr2 = lit 4",
        "r2 is read by ARITH add at 38 before it is assigned; that LIT at 53 in block 1 assigns it does not count for what follows a FORCE",
    );
}

#[test]
fn question_10_names_what_is_used_after_it_is_emptied() {
    flows(
        "r1 = call 1.0(r0)\nr1 = len r0",
        "r0 is emptied by CALL of 1.0 at 26 and read again by LEN at 35",
    );
    flows(
        "r1 = call 1.0(r0)\nr0 = use r0",
        "r0 is emptied by CALL of 1.0 at 26 and read again by USE at 35",
    );
    flows(
        "r1 = call 1.0(r0)\nr3 = prom 1\nblock 1 quiet -> r1\nr1 = len r0",
        "r0 is emptied by CALL of 1.0 at 26 and read again by LEN at 48 in block 1, of PROM at 35",
    );
}

#[test]
fn question_10_names_what_is_emptied_after_a_promise_captured_it() {
    flows(
        "r3 = prom 1\nr1 = call 1.0(r0)\nblock 1 quiet -> r1\nr1 = len r0",
        "r0 is captured by PROM at 26 and then emptied by CALL of 1.0 at 32",
    );
}

#[test]
fn question_10_names_what_would_fill_a_register_that_is_read_before() {
    flows(
        "r1 = call 1.0(r0)\nr1 = len r0\nr0 = vec []",
        "r0 is emptied by CALL of 1.0 at 26 and read again by LEN at 35, before VEC at 41 fills it again",
    );
}

#[test]
fn question_10_names_the_last_that_emptied_a_register() {
    flows(
        "r1 = call 1.0(r0)\nr0 = vec []\nr1 = call 1.0(r0)\nr1 = len r0",
        "r0 is emptied by CALL of 1.0 at 41 and read again by LEN at 50",
    );
}

#[test]
fn question_10_names_what_fills_a_register_on_one_way_alone() {
    flows(
        "r1 = call 1.0(r0)\nskip 1 unless r1\nr0 = vec []\nr1 = len r0",
        "r0 is emptied by CALL of 1.0 at 26, filled again by VEC at 41 only where SKIP at 35 does not skip, and read by LEN at 47",
    );
    flows(
        "r1 = call 1.0(r0)\nskip 2 unless r1\nskip 1 unless r1\nr0 = vec []\nr1 = call 1.0(r0)",
        "r0 is emptied by CALL of 1.0 at 26, filled again by VEC at 47 only where SKIP at 41 does not skip, and read by CALL of 1.0 at 53",
    );
}

#[test]
fn question_10_names_what_captured_a_register_that_is_emptied_and_filled_at_once() {
    flows(
        "r3 = prom 1\nr0 = use r0\nblock 1 quiet -> r1\nr1 = len r0",
        "r0 is captured by PROM at 26 and then emptied by USE at 32, which fills it again",
    );
}

#[test]
fn a_text_gets_its_lines_named() {
    let text = "# a comment\n\nversion 0.0(r0: vector, r1: int) -> int\n  level portal\n  block 0 quiet -> r1\n    set r0[r1] = r1 # shared\n";
    let file = file("lines", "wrong.fir", text.as_bytes());
    assert_eq!(
        fir(&["check", &file, "--no-mend"], b"").text(),
        format!(
            "{file}:6:5: refused by 8 at 24: SET needs an owned vector, r0 is a shared vector\n"
        )
    );
    let text = "version 0.0(r0: own vector) -> int\n  registers r1: int\n  level portal\n  block 0 quiet -> r1\n\n    r1 = call 0.0(r0)\n    r1 = len r0\n";
    let file = support::file("lines", "flow.fir", text.as_bytes());
    assert_eq!(
        fir(&["check", &file, "--no-mend"], b"").text(),
        format!("{file}:7:5: refused by 10 at 0: in VERSION 0.0, r0 is emptied by CALL of 0.0 at 24 (line 6) and read again by LEN at 33 (line 7)\n")
    );
}
