//! Question 9: marks and effects.

use crate::support::{accepts, refuses};

/// A body of this mark with an instruction over a quiet and a reflective promise.
fn body(mark: &str, instruction: &str) -> String {
    format!(
        "version 0.0(r0: quiet promise, r1: reflective promise, r2: value, r3: int) -> int
           block 0 {mark} -> r3
             {instruction}"
    )
}

/// A version 1.0 of this mark without any effect.
fn called(mark: &str) -> String {
    format!("version 1.0() -> int\nregisters r0: int\nblock 0 {mark} -> r0\nr0 = lit 1")
}

#[track_caller]
fn reflective(instruction: &str) {
    accepts(&body("reflective", instruction));
    refuses(&body("quiet", instruction), 9, 19);
}

#[test]
fn question9_peek_is_reflective() {
    reflective("r2 = peek r0.x0");
}

#[test]
fn question9_poke_is_reflective() {
    reflective("poke r0.x0 = r2");
}

#[test]
fn question9_force_is_reflective_by_the_declared_kind() {
    reflective("r3 = force r1");
    accepts(&body("quiet", "r3 = force r0"));
    // What register 1 holds here is a quiet promise, but it is declared reflective.
    refuses(&body("quiet", "r1 = move r0\nr3 = force r1"), 9, 19);
}

#[test]
fn question9_call_is_reflective_by_the_mark_written_in_its_version() {
    let call = |mark, callee| format!("{}\n{}", body(mark, "r3 = call 1.0()"), called(callee));
    accepts(&call("quiet", "quiet"));
    accepts(&call("reflective", "reflective"));
    refuses(&call("quiet", "reflective"), 9, 19);
}

#[test]
fn question9_dispatch_is_reflective_by_its_own_mark() {
    reflective("r3 = dispatch 0() -> int reflective");
    accepts(&body("quiet", "r3 = dispatch 0() -> int quiet"));
}

#[test]
fn question9_all_other_instructions_are_quiet() {
    for instruction in [
        "r3 = lit 1",
        "r3 = add r3, r3",
        "r2 = named x0",
        "store x0 = r2",
        "r3 = cast r2",
        "skip 0 unless r3",
    ] {
        accepts(&body("quiet", instruction));
    }
}

#[test]
fn question9_skipped_instructions_count() {
    reflective("skip 1 unless r3\nr2 = peek r0.x0");
}

#[test]
fn question9_prom_of_a_reflective_block_is_quiet() {
    accepts(&body(
        "quiet",
        "r1 = prom 1\nblock 1 reflective -> r3\nr2 = peek r0.x0",
    ));
}

#[test]
fn question9_effect_of_a_promise_block_is_at_that_block() {
    let text = "r1 = prom 1\nblock 1 quiet -> r3\nr2 = peek r0.x0";
    refuses(&body("reflective", text), 9, 19 + 7 + 6);
}

#[test]
fn question9_mark_higher_than_needed_is_no_fault() {
    accepts(&body("reflective", ""));
}

#[test]
fn question9_is_put_to_the_whole_image_before_question_10() {
    let flow_fails = "version 0.0() -> int\nregisters r0: int\nblock 0 quiet -> r0\n";
    let effect_fails = body("quiet", "r2 = peek r0.x0").replace("0.0", "0.1");
    refuses(
        &format!("{flow_fails}{effect_fails}"),
        9,
        (11 + 5 + 7) + (14 + 5),
    );
}
