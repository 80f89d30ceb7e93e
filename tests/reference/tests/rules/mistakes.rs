//! "Mistakes to rule out".

use crate::support::{accepts, refuses};
use cases::{calling_with, emptying_after, returning};

#[test]
fn one_owned_register_given_as_owned_and_borrowed_in_one_call_is_8() {
    accepts(&calling_with("r0, r1"));
    refuses(&calling_with("r0, r0"), 8, 13 + 5 + 7);
}

#[test]
fn one_owned_register_given_as_borrowed_after_it_is_owned_in_one_call_is_8() {
    refuses(
        "version 0.0(r0: own vector, r1: int) -> int
           block 0 quiet -> r1
             r1 = dispatch 0(r0: own vector, r0: borrow vector) -> int quiet",
        8,
        12 + 5 + 7,
    );
}

#[test]
fn reading_a_register_that_only_a_forced_block_assigned_is_10() {
    refuses(
        "version 0.0(r0: int) -> int
           registers r1: int, r2: quiet promise
           block 0 quiet -> r1
             r2 = prom 1
             r0 = force r2
           block 1 quiet -> r1
             r1 = lit 5",
        10,
        0,
    );
}

#[test]
fn emptying_a_register_after_a_promise_captured_it_is_10() {
    accepts(&emptying_after("r1", "use r0"));
    refuses(&emptying_after("r0", "use r0"), 10, 0);
}

#[test]
fn returning_kind_0_is_6() {
    refuses(&returning("any"), 6, 0);
}
