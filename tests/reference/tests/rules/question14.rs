//! Question 14: where skipped parts end.

use crate::support::{accepts, refuses};
use cases::image;

/// A body over two integers; its first instruction stands at 24, and each SKIP
/// and MOVE has 6 bytes.
fn body(instructions: &[&str]) -> String {
    let lines = instructions.join("\n");
    format!("version 0.0(r0: int, r1: int) -> int\nblock 0 quiet -> r0\n{lines}")
}

/// An instruction to be skipped.
const MOVE: &str = "r1 = move r0";

#[track_caller]
fn ends_inside(instructions: &[&str]) {
    accepts(&body(instructions));
}

/// Asserts that the SKIP of this number among the instructions goes too far.
#[track_caller]
fn goes_past(instructions: &[&str], number: usize) {
    refuses(&body(instructions), 14, 24 + 6 * number);
}

#[test]
fn question14_part_may_end_where_its_block_ends() {
    ends_inside(&["skip 1 unless r0", MOVE]);
    ends_inside(&["skip 0 unless r0"]);
    ends_inside(&[MOVE, "skip 2 unless r0", MOVE, MOVE]);
}

#[test]
fn question14_part_past_the_end_of_its_block() {
    goes_past(&["skip 1 unless r0"], 0);
    goes_past(&["skip 2 unless r0", MOVE], 0);
    goes_past(&[MOVE, MOVE, "skip 2 unless r0", MOVE], 2);
    goes_past(&[MOVE, "skip 255 unless r0", MOVE], 1);
}

#[test]
fn question14_longest_block_holds_a_part_of_47() {
    let mut instructions = [MOVE; 48];
    instructions[0] = "skip 47 unless r0";
    ends_inside(&instructions);
    instructions[0] = "skip 48 unless r0";
    goes_past(&instructions, 0);
    instructions[0] = "skip 255 unless r0";
    goes_past(&instructions, 0);
    instructions[0] = MOVE;
    instructions[47] = "skip 0 unless r0";
    ends_inside(&instructions);
    instructions[47] = "skip 1 unless r0";
    goes_past(&instructions, 47);
}

#[test]
fn question14_part_may_end_where_the_part_around_it_ends() {
    ends_inside(&["skip 3 unless r0", "skip 2 unless r1", MOVE, MOVE, MOVE]);
    ends_inside(&["skip 3 unless r0", "skip 1 unless r1", MOVE, MOVE, MOVE]);
    ends_inside(&["skip 1 unless r0", "skip 0 unless r1", MOVE]);
    ends_inside(&[
        "skip 3 unless r0",
        "skip 2 unless r0",
        "skip 1 unless r0",
        MOVE,
    ]);
}

#[test]
fn question14_part_past_the_end_of_the_part_around_it_is_at_the_inner_skip() {
    goes_past(&["skip 2 unless r0", "skip 2 unless r1", MOVE, MOVE], 1);
    goes_past(&["skip 1 unless r0", "skip 1 unless r1", MOVE], 1);
    goes_past(
        &[MOVE, "skip 2 unless r0", MOVE, "skip 1 unless r1", MOVE],
        3,
    );
}

#[test]
fn question14_every_part_around_counts() {
    // The last SKIP stands behind the second one's part, but in the first one's.
    let instructions = [
        "skip 4 unless r0",
        "skip 1 unless r0",
        MOVE,
        "skip 2 unless r0",
        MOVE,
        MOVE,
    ];
    goes_past(&instructions, 3);
    // It goes past the part of the second SKIP, and not past that of the first.
    let instructions = [
        "skip 4 unless r0",
        "skip 2 unless r0",
        "skip 2 unless r0",
        MOVE,
        MOVE,
    ];
    goes_past(&instructions, 2);
}

#[test]
fn question14_part_that_has_ended_does_not_count() {
    ends_inside(&["skip 1 unless r0", MOVE, "skip 2 unless r0", MOVE, MOVE]);
    ends_inside(&["skip 0 unless r0", "skip 2 unless r0", MOVE, MOVE]);
}

#[test]
fn question14_block_ends_before_the_next_one() {
    let text = "version 0.0(r0: int, r1: int) -> int
                  registers r2: quiet promise
                  block 0 quiet -> r0
                    r2 = prom 1
                    skip 1 unless r0
                  block 1 quiet -> r1
                    r1 = move r0";
    refuses(text, 14, 13 + 5 + 7 + 6);
}

#[test]
fn question14_skip_in_a_promise_block() {
    let text = |n: u8| {
        format!(
            "version 0.0(r0: int, r1: int) -> int
               registers r2: quiet promise
               block 0 quiet -> r0
                 r2 = prom 1
               block 1 quiet -> r1
                 skip {n} unless r0
                 r1 = move r0"
        )
    };
    accepts(&text(1));
    refuses(&text(2), 14, 13 + 5 + 7 + 6 + 7);
}

#[test]
fn question14_first_skip_that_fails_in_image_order() {
    goes_past(&["skip 9 unless r0", "skip 9 unless r0"], 0);
    let good = body(&["skip 1 unless r0", MOVE]);
    let bad = body(&["skip 1 unless r0"]).replace("0.0", "0.1");
    let worse = bad.replace("0.1", "0.2");
    let offset = image(&good).len() + 24;
    refuses(&format!("{good}\n{bad}\n{worse}"), 14, offset);
}

#[test]
fn question14_is_put_after_7_and_before_8() {
    // The second instruction of each names a register that does not exist, or
    // moves an integer into a vector.
    refuses(&body(&["skip 9 unless r0", "r2 = move r0"]), 7, 24 + 6);
    let text = "version 0.0(r0: int, r1: vector) -> int
                  block 0 quiet -> r0
                    r1 = move r0
                    skip 9 unless r1";
    refuses(text, 14, 24 + 6);
    refuses(&text.replace("skip 9", "skip 0"), 8, 24);
}
