//! Question 7: what records name must exist.

use crate::support::{accepts, refuses};
use cases::image;
use reference::questions_1_to_7;

/// Two registers, and an instruction at offset 19.
fn with_instruction(instruction: &str) -> String {
    format!(
        "version 0.0(r0: int, r1: int) -> int
           block 0 reflective -> r0
             {instruction}"
    )
}

/// Each instruction with a register that does not exist, r2, in each of its fields.
const MISSING: [&str; 43] = [
    "r2 = lit 0",
    "r2 = move r0",
    "r0 = move r2",
    "r2 = use r0",
    "r0 = use r2",
    "r2 = dup r0",
    "r0 = dup r2",
    "r2 = vec [r0, r1]",
    "r0 = vec [r2, r1]",
    "r0 = vec [r1, r2]",
    "r2 = len r0",
    "r0 = len r2",
    "r2 = get r0[r1]",
    "r0 = get r2[r1]",
    "r0 = get r1[r2]",
    "set r2[r0] = r1",
    "set r0[r2] = r1",
    "set r0[r1] = r2",
    "r2 = add r0, r1",
    "r0 = add r2, r1",
    "r0 = add r1, r2",
    "r2 = select r0 ? r1 : r0",
    "r0 = select r2 ? r1 : r0",
    "r0 = select r1 ? r2 : r0",
    "r0 = select r1 ? r0 : r2",
    "r2 = cast r0",
    "r0 = cast r2",
    "r2 = named x0",
    "store x0 = r2",
    "r2 = prom 1\nblock 1 quiet -> r0",
    "r2 = force r0",
    "r0 = force r2",
    "r2 = peek r0.x0",
    "r0 = peek r2.x0",
    "poke r2.x0 = r0",
    "poke r0.x0 = r2",
    "r2 = call 0.0(r0, r1)",
    "r0 = call 0.0(r2, r1)",
    "r0 = call 0.0(r1, r2)",
    "r2 = dispatch 0(r0: int) -> int quiet",
    "r0 = dispatch 0(r2: int) -> int quiet",
    "r0 = dispatch 0(r1: int, r2: int) -> int quiet",
    "skip 0 unless r2",
];

#[test]
fn question7_each_register_field_of_each_instruction() {
    for instruction in MISSING {
        refuses(&with_instruction(instruction), 7, 24);
        let existing = with_instruction(&instruction.replace("r2", "r1"));
        assert_eq!(questions_1_to_7(&image(&existing)), None, "{existing}");
    }
}

#[test]
fn question7_result_register_of_the_body() {
    refuses("version 0.0(r0: int) -> int\nblock 0 quiet -> r1", 7, 16);
}

#[test]
fn question7_result_register_of_a_promise_block() {
    refuses(&with_instruction("r0 = prom 1\nblock 1 quiet -> r2"), 7, 30);
}

#[test]
fn question7_names_are_0_to_7() {
    for instruction in [
        "r0 = named x7",
        "store x7 = r0",
        "r0 = peek r0.x7",
        "poke r0.x7 = r0",
    ] {
        let existing = with_instruction(instruction);
        assert_eq!(questions_1_to_7(&image(&existing)), None);
        refuses(&existing.replace("x7", "x8"), 7, 24);
        refuses(&existing.replace("x7", "x255"), 7, 24);
    }
}

#[test]
fn question7_called_function() {
    refuses(&with_instruction("r0 = call 1.0(r0, r1)"), 7, 24);
    refuses(&with_instruction("r0 = call 32.0(r0, r1)"), 7, 24);
}

#[test]
fn question7_called_version() {
    refuses(&with_instruction("r0 = call 0.1(r0, r1)"), 7, 24);
    refuses(&with_instruction("r0 = call 0.255(r0, r1)"), 7, 24);
}

#[test]
fn question7_dispatched_function() {
    let dispatch = "r0 = dispatch 1(r0: int) -> int quiet";
    refuses(&with_instruction(dispatch), 7, 24);
}

#[test]
fn question7_a_version_may_be_called_before_it_stands() {
    let caller = with_instruction("r0 = call 1.0()");
    let called = "version 1.0() -> int\nregisters r0: int\nblock 0 quiet -> r0\nr0 = lit 1";
    accepts(&format!("{caller}\n{called}"));
}

#[test]
fn question7_n_of_a_call_is_the_parameter_count() {
    refuses(&with_instruction("r0 = call 0.0(r0)"), 7, 24);
    refuses(&with_instruction("r0 = call 0.0(r0, r1, r0)"), 7, 24);
}

#[test]
fn question7_n_of_a_dispatch_is_compared_with_nothing() {
    accepts(&with_instruction("r0 = dispatch 0() -> int quiet"));
    let three = "r0 = dispatch 0(r0: int, r0: int, r0: int) -> int quiet";
    accepts(&with_instruction(three));
}

#[test]
fn question7_block_of_a_prom_that_does_not_exist() {
    refuses(&with_instruction("r0 = prom 1"), 7, 24);
    refuses(&with_instruction("r0 = prom 255"), 7, 24);
}

#[test]
fn question7_block_0_of_a_prom_is_not_above_its_own() {
    refuses(&with_instruction("r0 = prom 0"), 7, 24);
}

#[test]
fn question7_own_block_of_a_prom_is_not_above_its_own() {
    // Block 1 stands at 32, and its PROM of itself counts as naming it too.
    let text = "r0 = lit 0\nblock 1 quiet -> r0\nr0 = prom 1";
    refuses(&with_instruction(text), 7, 24 + 13 + 7);
}

#[test]
fn question7_lower_block_of_a_prom_is_not_above_its_own() {
    let text = "r0 = prom 2\nblock 1 quiet -> r0\nblock 2 quiet -> r0\nr0 = prom 1";
    refuses(&with_instruction(text), 7, 24 + 6 + 7 + 7);
}

#[test]
fn question7_block_that_no_prom_names_fails_at_the_block() {
    refuses(&with_instruction("block 1 quiet -> r0"), 7, 24);
}

#[test]
fn question7_block_that_two_proms_name_fails_at_the_block() {
    let text = "r0 = prom 1\nr1 = prom 1\nblock 1 quiet -> r0";
    refuses(&with_instruction(text), 7, 24 + 6 + 6);
}

#[test]
fn question7_proms_in_two_blocks_that_name_one_fail_at_the_block() {
    let text = "r0 = prom 1\nr1 = prom 2\nblock 1 quiet -> r0\nr0 = prom 2\nblock 2 quiet -> r0";
    refuses(&with_instruction(text), 7, 24 + 6 + 6 + 7 + 6);
}

#[test]
fn question7_a_prom_that_fails_itself_counts_as_naming_its_block() {
    // The PROM at 19 has no register 2; block 1 would fail before only if it stood before.
    let text = "r2 = prom 1\nblock 1 quiet -> r0";
    refuses(&with_instruction(text), 7, 24);
    // Here block 1 is named by a PROM of block 2, which fails after it.
    let text = "r0 = prom 2\nblock 1 quiet -> r0\nblock 2 quiet -> r0\nr0 = prom 1";
    refuses(&with_instruction(text), 7, 24 + 6 + 7 + 7);
}

#[test]
fn question7_a_prom_of_another_version_names_no_block_here() {
    let unnamed = with_instruction("block 1 quiet -> r0");
    let other = with_instruction("r0 = prom 1\nblock 1 quiet -> r0").replace("0.0", "0.1");
    refuses(&format!("{unnamed}\n{other}"), 7, 24);
}

#[test]
fn question7_first_failing_record_counts_whatever_part_it_fails() {
    let text = "r9 = lit 0\nblock 1 quiet -> r0";
    refuses(&with_instruction(text), 7, 24);
    let text = "r0 = lit 0\nblock 1 quiet -> r0\nr9 = lit 0";
    refuses(&with_instruction(text), 7, 37);
}

#[test]
fn question7_is_put_to_the_whole_image_before_question_8() {
    let text = "set r0[r0] = r0\nr9 = lit 0";
    refuses(&with_instruction(text), 7, 31);
}
