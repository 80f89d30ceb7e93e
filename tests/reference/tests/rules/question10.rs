//! Question 10: flow.

use crate::support::{accepts, refuses};
use cases::image;
use reference::{verdict, Verdict};

/// r0 own vector, r1 own vector, r2 int and r3 vector are parameters; r4 own
/// vector, r5 int, r6 and r7 quiet promises and r8 int are not.
fn body(instructions: &str) -> String {
    format!(
        "version 0.0(r0: own vector, r1: own vector, r2: int, r3: vector) -> int
           registers r4: own vector, r5: int, r6: quiet promise, r7: quiet promise, r8: int
           block 0 quiet -> r2
             {instructions}"
    )
}

#[track_caller]
pub fn flows(instructions: &str) {
    accepts(&body(instructions));
}

#[track_caller]
pub fn fails(instructions: &str) {
    refuses(&body(instructions), 10, 0);
}

#[test]
fn question10_parameters_may_be_read() {
    flows("r5 = len r0\nr5 = len r3\nr5 = add r2, r5");
}

#[test]
fn question10_operand_that_nothing_assigned() {
    fails("r8 = add r2, r5");
    fails("r8 = len r4");
    fails("r5 = add r5, r2");
}

#[test]
fn question10_register_assigned_before_may_be_read() {
    flows("r5 = lit 1\nr8 = add r5, r5");
}

#[test]
fn question10_register_assigned_only_afterwards() {
    fails("r8 = add r5, r5\nr5 = lit 1");
}

#[test]
fn question10_set_reads_its_vector() {
    fails("set r4[r2] = r2");
    flows("r4 = vec [r2]\nset r4[r2] = r2");
    flows("set r0[r2] = r2");
}

#[test]
fn question10_use_into_another_register() {
    flows("r4 = use r0");
}

#[test]
fn question10_dup_into_the_same_register() {
    flows("r0 = dup r0");
}

#[test]
fn question10_emptied_register_is_not_read() {
    fails("r4 = use r0\nr5 = len r0");
    fails("r4 = use r0\nset r0[r2] = r2");
}

#[test]
fn question10_emptied_register_is_not_emptied_again() {
    fails("r4 = use r0\nr4 = use r0");
}

#[test]
fn question10_emptied_register_is_not_captured_by_reading() {
    fails("r4 = use r0\nr6 = prom 1\nblock 1 quiet -> r5\nr5 = len r0");
}

#[test]
fn question10_emptied_register_is_not_captured_by_assigning() {
    fails("r4 = use r0\nr6 = prom 1\nblock 1 quiet -> r2\nr0 = vec []");
}

#[test]
fn question10_captured_register_is_not_emptied() {
    fails("r6 = prom 1\nr4 = use r0\nblock 1 quiet -> r5\nr5 = len r0");
}

#[test]
fn question10_register_captured_by_assigning_is_not_emptied() {
    fails("r6 = prom 1\nr4 = use r0\nblock 1 quiet -> r2\nr0 = vec []");
}

#[test]
fn question10_register_captured_by_a_nested_block_is_not_emptied() {
    let nested = "block 1 quiet -> r2\nr7 = prom 2\nblock 2 quiet -> r5\nr5 = len r0";
    fails(&format!("r6 = prom 1\nr4 = use r0\n{nested}"));
    flows(&format!("r6 = prom 1\nr4 = use r1\n{nested}"));
}

#[test]
fn question10_register_captured_by_assigning_in_a_nested_block_is_not_emptied() {
    let nested = "block 1 quiet -> r2\nr7 = prom 2\nblock 2 quiet -> r2\nr0 = vec []";
    fails(&format!("r6 = prom 1\nr4 = use r0\n{nested}"));
    flows(&format!("r6 = prom 1\nr4 = use r1\n{nested}"));
}

#[test]
fn question10_captured_register_may_be_read_and_assigned() {
    let block = "block 1 quiet -> r5\nr5 = len r0";
    flows(&format!("r6 = prom 1\nr0 = vec []\nr8 = len r0\n{block}"));
}

#[test]
fn question10_two_promises_may_capture_one_register() {
    flows(
        "r6 = prom 1\nr7 = prom 2
         block 1 quiet -> r5\nr5 = len r0
         block 2 quiet -> r5\nr5 = len r0",
    );
}

#[test]
fn question10_block_reads_what_was_assigned_before_its_prom() {
    let block = "block 1 quiet -> r8\nr8 = add r5, r5";
    flows(&format!("r5 = lit 1\nr6 = prom 1\n{block}"));
    fails(&format!("r6 = prom 1\nr5 = lit 1\nr2 = force r6\n{block}"));
}

#[test]
fn question10_block_reads_what_it_assigned_itself() {
    flows("r6 = prom 1\nblock 1 quiet -> r8\nr5 = lit 1\nr8 = add r5, r5");
}

#[test]
fn question10_what_a_block_assigns_is_not_assigned_after_its_prom() {
    fails("r6 = prom 1\nr2 = force r6\nr2 = add r5, r5\nblock 1 quiet -> r5\nr5 = lit 1");
}

#[test]
fn question10_what_a_block_assigns_is_not_assigned_in_the_block_around_it() {
    fails(
        "r6 = prom 1
         block 1 quiet -> r5\nr7 = prom 2
         block 2 quiet -> r5\nr5 = lit 1",
    );
}

#[test]
fn question10_nested_block_reads_what_was_assigned_around_it() {
    flows(
        "r6 = prom 1
         block 1 quiet -> r8\nr8 = lit 1\nr7 = prom 2
         block 2 quiet -> r5\nr5 = add r8, r2",
    );
}

#[test]
fn question10_promise_block_reads_its_result_register_last() {
    fails("r6 = prom 1\nblock 1 quiet -> r5");
    flows("r6 = prom 1\nblock 1 quiet -> r2");
}

#[test]
fn question10_prom_assigns_d_after_its_block() {
    // The block reads r6, which nothing assigned before.
    fails("r6 = prom 1\nblock 1 quiet -> r5\nr5 = force r6");
    // Here another promise was in r6 before.
    flows("r6 = prom 1\nr6 = prom 2\nblock 1 quiet -> r2\nblock 2 quiet -> r5\nr5 = force r6");
}

#[test]
fn question10_emptying_call_empties_after_reading_and_before_assigning_d() {
    flows("r2 = dispatch 0(r0: own vector, r2: int) -> int quiet");
    fails("r2 = dispatch 0(r0: own vector) -> int quiet\nr5 = len r0");
}

#[test]
fn question10_call_that_borrows_empties_nothing() {
    flows("r2 = dispatch 0(r0: borrow vector) -> int quiet\nr4 = use r0");
}

#[test]
fn question10_call_assigns_d_only_after_it() {
    fails("r5 = dispatch 0(r5: int) -> int quiet");
    flows("r5 = dispatch 0(r2: int) -> int quiet\nr8 = add r5, r5");
}

#[test]
fn question10_result_register_of_the_body_is_read_last() {
    let owned = "version 0.0(r0: own vector) -> own vector
                   registers r1: own vector
                   block 0 quiet -> r0
                     r1 = use r0";
    refuses(owned, 10, 0);
}

#[test]
fn question10_fault_of_a_promise_block_is_at_the_version() {
    let good = body("");
    let bad = body("r6 = prom 1\nblock 1 quiet -> r5").replace("0.0", "0.1");
    let offset = image(&good).len();
    refuses(&format!("{good}\n{bad}"), 10, offset);
}

#[test]
fn question10_holds_where_a_register_is_never_touched() {
    let text = "version 0.0(r0: int) -> int\nregisters r1: own vector\nblock 0 quiet -> r0";
    assert_eq!(verdict(&image(text)), Verdict::Accepted(1));
}
