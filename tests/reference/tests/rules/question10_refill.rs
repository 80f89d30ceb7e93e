//! Question 10 where an emptied register is filled again.

use crate::question10::{fails, flows};
use cases::image;
use reference::report;

#[test]
fn question10_emptied_register_may_be_assigned_and_is_full_again() {
    flows("r4 = use r0\nr0 = vec []");
    flows("r4 = use r0\nr0 = vec []\nr5 = len r0");
    flows("r4 = use r0\nr0 = dup r4\nset r0[r2] = r2");
    flows("r4 = use r0\nr0 = use r4\nr4 = use r0\nr5 = len r4");
}

#[test]
fn question10_only_the_register_that_is_assigned_is_full_again() {
    fails("r4 = use r0\nr0 = use r4\nr5 = len r4");
    fails("r4 = use r0\nr1 = vec []\nr5 = len r0");
    flows("r4 = use r0\nr1 = vec []\nr5 = len r1");
}

#[test]
fn question10_instruction_may_fill_what_it_emptied_itself() {
    flows("r0 = use r0\nr5 = len r0");
    flows("r0 = use r0\nr0 = use r0\nr4 = use r0");
    flows("r0 = dispatch 0(r0: own vector) -> own vector quiet\nr5 = len r0");
    // Of two that it empties it fills one.
    let two = "r0 = dispatch 0(r0: own vector, r1: own vector) -> own vector quiet";
    flows(&format!("{two}\nr5 = len r0"));
    fails(&format!("{two}\nr5 = len r1"));
}

#[test]
fn question10_emptied_register_is_not_read_by_what_fills_it() {
    fails("r4 = use r0\nr0 = dup r0");
    fails("r4 = use r0\nset r0[r2] = r2");
}

#[test]
fn question10_emptied_register_is_not_emptied_by_what_fills_it() {
    fails("r4 = use r0\nr0 = use r0");
    fails("r4 = use r0\nr0 = dispatch 0(r0: own vector) -> own vector quiet");
}

#[test]
fn question10_register_is_not_read_between_its_emptying_and_its_filling() {
    fails("r4 = use r0\nr5 = len r0\nr0 = vec []");
}

#[test]
fn question10_emptied_register_is_not_captured_before_it_is_filled() {
    let block = "block 1 quiet -> r5\nr5 = len r0";
    fails(&format!("r4 = use r0\nr6 = prom 1\nr0 = vec []\n{block}"));
    flows(&format!("r4 = use r0\nr0 = vec []\nr6 = prom 1\n{block}"));
}

#[test]
fn question10_promise_block_does_not_fill_what_its_body_emptied() {
    fails("r4 = use r0\nr6 = prom 1\nr2 = force r6\nblock 1 quiet -> r2\nr0 = vec []");
}

#[test]
fn question10_captured_register_is_not_emptied_even_by_what_fills_it() {
    let block = "block 1 quiet -> r5\nr5 = len r0";
    fails(&format!("r6 = prom 1\nr0 = use r0\n{block}"));
    fails(&format!(
        "r6 = prom 1\nr0 = dispatch 0(r0: own vector) -> own vector quiet\n{block}"
    ));
    // It was emptied and filled before it was captured.
    fails(&format!("r0 = use r0\nr6 = prom 1\nr0 = use r0\n{block}"));
    flows(&format!("r0 = use r0\nr6 = prom 1\nr1 = use r1\n{block}"));
}

#[test]
fn question10_register_filled_on_one_way_of_a_skip_is_empty_after_the_part() {
    fails("r4 = use r0\nskip 1 unless r2\nr0 = vec []\nr5 = len r0");
    flows("r4 = use r0\nskip 2 unless r2\nr0 = vec []\nr5 = len r0");
    flows("r4 = use r0\nskip 1 unless r2\nr0 = vec []\nr0 = vec []\nr5 = len r0");
}

#[test]
fn question10_part_that_fills_what_it_empties_leaves_it_full() {
    flows("skip 2 unless r2\nr4 = use r0\nr0 = vec []\nr5 = len r0");
    flows("skip 1 unless r2\nr0 = use r0\nr5 = len r0");
    fails("skip 2 unless r2\nr4 = use r0\nr0 = use r4\nr5 = len r4");
}

#[test]
fn question10_register_that_is_emptied_on_one_way_may_be_filled_behind_the_part() {
    flows("skip 1 unless r2\nr4 = use r0\nr0 = vec []\nr5 = len r0");
}

#[test]
fn question10_filled_register_that_no_parameter_is_was_assigned() {
    // r4 is assigned, emptied and filled again.
    flows("r4 = vec []\nr0 = use r4\nr4 = vec []\nr5 = len r4");
}

#[test]
fn report_counts_as_emptied_what_is_still_empty_at_the_end_of_the_body() {
    let lines = |instructions: &str| {
        report(&image(&format!(
            "version 0.0(r0: own vector, r1: int) -> int
               registers r2: own vector, r3: own vector
               block 0 quiet -> r1
                 {instructions}"
        )))
    };
    // Each reads r0 and r1, and assigns what stands before `=`.
    assert_eq!(lines("r2 = use r0"), "0.0 2 1 1 0\naccepted 1\n");
    assert_eq!(lines("r0 = use r0"), "0.0 2 1 0 0\naccepted 1\n");
    let filled = "r2 = use r0\nr0 = vec []";
    assert_eq!(lines(filled), "0.0 2 2 0 0\naccepted 1\n");
    let chain = "r2 = use r0\nr3 = use r2\nr0 = use r3";
    assert_eq!(lines(chain), "0.0 2 3 2 0\naccepted 1\n");
    let one_way = "r2 = use r0\nskip 1 unless r1\nr0 = vec []";
    assert_eq!(lines(one_way), "0.0 2 1 1 0\naccepted 1\n");
}
