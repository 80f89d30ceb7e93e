//! Question 10 at a SKIP: flow follows both ways, and joins them after the part.

use crate::question10::{fails, flows};
use crate::support::{accepts, refuses};

#[test]
fn question10_skip_reads_its_register_even_where_n_is_0() {
    fails("skip 0 unless r5");
    fails("skip 1 unless r5\nr5 = lit 1");
    flows("skip 0 unless r2");
}

#[test]
fn question10_what_one_way_alone_assigns_is_not_assigned_after_the_part() {
    fails("skip 1 unless r2\nr5 = lit 1\nr8 = add r5, r2");
    fails("skip 1 unless r2\nr4 = vec []\nr8 = len r4");
    fails("skip 1 unless r2\nr6 = prom 1\nr8 = force r6\nblock 1 quiet -> r2");
}

#[test]
fn question10_what_a_part_assigns_may_be_read_in_it() {
    flows("skip 2 unless r2\nr5 = lit 1\nr8 = add r5, r5");
}

#[test]
fn question10_what_was_assigned_before_may_be_read_after_the_part() {
    flows("r5 = lit 0\nskip 1 unless r2\nr5 = lit 1\nr8 = add r5, r5");
}

#[test]
fn question10_parts_that_between_them_always_assign_do_not_assign() {
    // r8 is 1 where r2 is 0, and 0 elsewhere: each run assigns r5.
    let parts = "r8 = lit 1\nskip 1 unless r2\nr8 = lit 0
                 skip 1 unless r2\nr5 = lit 1
                 skip 1 unless r8\nr5 = lit 2";
    flows(parts);
    fails(&format!("{parts}\nr8 = add r5, r5"));
}

#[test]
fn question10_way_that_no_run_takes_must_be_allowed() {
    // r5 is never 0, or always 0.
    for value in [0, 1] {
        fails(&format!(
            "r5 = lit {value}\nskip 1 unless r5\nr5 = add r8, r8"
        ));
        fails(&format!(
            "r5 = lit {value}\nskip 1 unless r5\nr8 = lit 1\nr5 = add r8, r8"
        ));
    }
}

#[test]
fn question10_what_a_part_reads_before_assigning_is_read() {
    fails("skip 1 unless r2\nr8 = add r5, r5");
    fails("skip 2 unless r2\nr8 = add r5, r5\nr5 = lit 1\nr5 = lit 1");
}

#[test]
fn question10_what_one_way_empties_is_empty_after_the_part() {
    fails("skip 1 unless r2\nr4 = use r0\nr5 = len r0");
    fails("skip 1 unless r2\nr4 = use r0\nr4 = use r0");
    fails("skip 1 unless r2\nr4 = use r0\nr6 = prom 1\nblock 1 quiet -> r5\nr5 = len r0");
    flows("skip 1 unless r2\nr4 = use r0\nr5 = len r1");
}

#[test]
fn question10_part_goes_on_from_what_stands_before_it() {
    fails("r4 = use r0\nskip 1 unless r2\nr5 = len r0");
    fails("r6 = prom 1\nskip 1 unless r2\nr4 = use r0\nblock 1 quiet -> r5\nr5 = len r0");
    flows("r4 = use r0\nskip 1 unless r2\nr5 = len r4");
}

#[test]
fn question10_what_one_way_captures_is_captured_after_the_part() {
    let block = "block 1 quiet -> r5\nr5 = len r0";
    fails(&format!(
        "skip 1 unless r2\nr6 = prom 1\nr4 = use r0\n{block}"
    ));
    flows(&format!(
        "skip 1 unless r2\nr6 = prom 1\nr4 = use r1\n{block}"
    ));
}

#[test]
fn question10_nested_parts_join_one_after_the_other() {
    // r5 is assigned in the outer part before the inner one, r8 in the inner one.
    let nested = |read: &str| {
        format!("skip 4 unless r2\nr5 = lit 1\nskip 1 unless r5\nr8 = lit 2\nr5 = add {read}")
    };
    flows(&nested("r5, r5"));
    fails(&nested("r8, r8"));
    // What the inner part empties is empty in the rest of the outer one and behind it.
    fails("skip 3 unless r2\nskip 1 unless r2\nr4 = use r0\nr5 = len r0");
    fails("skip 2 unless r2\nskip 1 unless r2\nr4 = use r0\nr5 = len r0");
}

#[test]
fn question10_part_of_no_instruction_changes_nothing() {
    flows("skip 0 unless r2\nr5 = lit 1\nr8 = add r5, r5");
    flows("r5 = lit 1\nskip 0 unless r5\nr8 = add r5, r5");
}

#[test]
fn question10_result_register_is_read_after_the_last_part() {
    let text = |first: &str| {
        format!(
            "version 0.0(r0: int) -> int
               registers r1: int
               block 0 quiet -> r1
                 {first}
                 skip 1 unless r0
                 r1 = lit 1"
        )
    };
    refuses(&text(""), 10, 0);
    accepts(&text("r1 = lit 2"));
}

#[test]
fn question10_promise_block_captures_what_both_its_ways_assign() {
    // Only the part assigns r0.
    flows("r6 = prom 1\nr4 = use r0\nblock 1 quiet -> r2\nskip 1 unless r2\nr0 = vec []");
    // It is assigned before the part too.
    fails(
        "r6 = prom 1\nr4 = use r0
         block 1 quiet -> r2\nr0 = vec []\nskip 1 unless r2\nr0 = vec []",
    );
    // The part reads it.
    fails(
        "r6 = prom 1\nr4 = use r0\nblock 1 quiet -> r5\nr5 = lit 1\nskip 1 unless r2\nr5 = len r0",
    );
}
