//! Question 8: result registers, and what promise blocks may not do.

use super::question8_operands::with_every_type;
use crate::support::{accepts, refuses};
use cases::image;
use reference::{verdict, Refusal, Verdict};

/// The result registers with which a body of this return type is accepted; the
/// others are refused by 8 at its BLOCK.
#[track_caller]
fn results_of(returns: &str) -> Vec<u8> {
    let number = 8;
    let accepted = |result: &u8| {
        let text = with_every_type("")
            .replace("-> int", &format!("-> {returns}"))
            .replace("-> r2", &format!("-> r{result}"));
        match verdict(&image(&text)) {
            Verdict::Accepted(_) => true,
            Verdict::Refused(refusal) => {
                let offset = 23;
                assert_eq!(refusal, Refusal { number, offset });
                false
            }
        }
    };
    (0..8).filter(accepted).collect()
}

/// A body that makes a promise of a block with this instruction, which stands
/// at 23 + 7 + 6 + 7 = 43.
fn in_promise_block(instruction: &str) -> String {
    with_every_type(&format!(
        "r0 = prom 1
           block 1 reflective -> r2
             {instruction}"
    ))
}

#[test]
fn question8_result_of_a_body_lies_within_the_return_kind() {
    assert_eq!(results_of("value"), [1, 2, 3, 6]);
    assert_eq!(results_of("int"), [2]);
    assert_eq!(results_of("vector"), [3, 6]);
}

#[test]
fn question8_result_of_an_owned_return_is_owned() {
    assert_eq!(results_of("own vector"), [6]);
}

#[test]
fn question8_result_of_a_promise_block_is_an_integer() {
    for result in 0..8 {
        let block = format!("r0 = prom 1\nblock 1 quiet -> r{result}");
        if result == 2 {
            accepts(&with_every_type(&block));
        } else {
            refuses(&with_every_type(&block), 8, 23 + 7 + 6);
        }
    }
}

#[test]
fn question8_promise_block_has_no_use() {
    refuses(&in_promise_block("r3 = use r6"), 8, 43);
}

#[test]
fn question8_promise_block_has_no_set() {
    refuses(&in_promise_block("set r6[r2] = r2"), 8, 43);
}

#[test]
fn question8_promise_block_has_no_emptying_call() {
    let called = "version 1.0(r0: own vector) -> int
                    registers r1: int
                    block 0 quiet -> r1
                      r1 = len r0";
    let text = in_promise_block("r2 = call 1.0(r6)");
    refuses(&format!("{text}\n{called}"), 8, 43);
}

#[test]
fn question8_promise_block_has_no_emptying_dispatch() {
    let text = "r2 = dispatch 0(r6: own vector) -> int quiet";
    refuses(&in_promise_block(text), 8, 43);
}

#[test]
fn question8_promise_block_may_do_all_else() {
    for instruction in [
        "r6 = dup r6",
        "r6 = vec [r2]",
        "r2 = len r6",
        "r2 = get r6[r2]",
        "r1 = named x0",
        "store x0 = r1",
        "r2 = force r4",
        "r1 = peek r5.x0",
        "poke r5.x0 = r1",
        "r2 = dispatch 0(r6: borrow vector) -> int reflective",
        "r6 = dispatch 0(r7: borrow vector) -> own vector reflective",
    ] {
        accepts(&in_promise_block(instruction));
    }
}

#[test]
fn question8_first_failing_record_counts_block_or_instruction() {
    // The body's instruction fails before its promise block's result does.
    let text = "r2 = move r3\nr0 = prom 1\nblock 1 quiet -> r3";
    refuses(&with_every_type(text), 8, 30);
    let text = "r2 = move r2\nr0 = prom 1\nblock 1 quiet -> r3\nr2 = move r3";
    refuses(&with_every_type(text), 8, 30 + 6 + 6);
}

#[test]
fn question8_is_put_to_the_whole_image_before_questions_9_and_10() {
    let text = "version 0.0() -> int
                  registers r0: int, r1: quiet promise, r2: value
                  block 0 quiet -> r0
                    r2 = peek r1.x0
                version 0.1(r0: int) -> vector
                  block 0 quiet -> r0";
    refuses(text, 8, (13 + 5 + 7 + 7) + (11 + 5));
}
