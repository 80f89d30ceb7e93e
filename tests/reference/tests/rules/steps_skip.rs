//! "Steps": SKIP.

use crate::support::{end_of, Run, PORTAL, UNTOUCHED};
use cases::image;
use reference::{Answer, End, Integer, Program, Said, State, Value};

/// Counts in r1, from 0 on, with 1 in r2; r0 and r3 are the arguments.
fn counting(instructions: &str) -> String {
    format!(
        "version 0.0(r0: int, r1: int, r2: int, r3: int) -> int
           block 0 quiet -> r1
             {instructions}"
    )
}

/// Asserts what a count gives and its steps, for an r0 and an r3.
#[track_caller]
fn counts(instructions: &str, arguments: (Integer, Integer), count: Integer, steps: usize) {
    let words = [-1, arguments.0, -1, 0, -1, 1, -1, arguments.1];
    let found = end_of(&counting(instructions), &words);
    assert_eq!(found, (End::Integer(count), steps), "{instructions}");
}

const ONE_MORE: &str = "r1 = add r1, r2\n";

#[test]
fn skip_passes_over_the_next_n_instructions_where_a_is_0() {
    let text = format!("skip 2 unless r0\n{}", ONE_MORE.repeat(3));
    counts(&text, (0, 0), 1, 3);
    for other in [1, -1, 2, Integer::MIN, Integer::MAX] {
        counts(&text, (other, 0), 3, 5);
    }
}

#[test]
fn skip_of_no_instruction_is_one_step_too() {
    let text = format!("skip 0 unless r0\n{ONE_MORE}");
    counts(&text, (0, 0), 1, 3);
    counts(&text, (5, 0), 1, 3);
}

#[test]
fn skip_may_end_at_the_block_end() {
    let text = format!("skip 3 unless r0\n{}", ONE_MORE.repeat(3));
    counts(&text, (0, 0), 0, 2);
    counts(&text, (1, 0), 3, 5);
    let last = format!("{ONE_MORE}skip 0 unless r0");
    counts(&last, (0, 0), 1, 3);
}

#[test]
fn skip_counts_a_skip_in_its_part_as_one_instruction() {
    // Of three additions the second and third stand in the outer part, the
    // third in the inner one too.
    let text = format!("{ONE_MORE}skip 3 unless r0\n{ONE_MORE}skip 1 unless r3\n{ONE_MORE}");
    counts(&text, (0, 0), 1, 3);
    counts(&text, (0, 1), 1, 3);
    counts(&text, (1, 0), 2, 5);
    counts(&text, (1, 1), 3, 6);
}

#[test]
fn skip_changes_nothing_but_the_position() {
    for (argument, next) in [(0, 3), (7, 1)] {
        let text = counting(&format!("skip 2 unless r0\n{}", ONE_MORE.repeat(2)));
        let mut run = Run::begin(&text, &[-1, argument, -1, 0, -1, 1, -1, 0]);
        let mut expected = run.state.clone();
        expected.activations[0].next = next;
        assert_eq!(run.step(), Said::GoesOn);
        assert_eq!(run.state, expected);
    }
}

#[test]
fn skip_looks_at_the_budget_first() {
    let text = counting("skip 1 unless r0\nr1 = add r1, r2");
    let mut run = Run::begin(&text, &[-1, 0, -1, 0, -1, 1, -1, 0]);
    assert_eq!(run.budget(0), (Answer::Steps, 0));
    assert_eq!(run.budget(1), (Answer::Steps, 1));
    assert_eq!(run.budget(9), (Answer::Ended(End::Integer(0)), 1));
}

#[test]
fn skip_in_a_promise_block_passes_over_instructions_of_that_block() {
    let text = "version 0.0(r0: int) -> int
                  registers r1: quiet promise, r2: int
                  block 0 quiet -> r2
                    r1 = prom 1
                    r2 = force r1
                  block 1 quiet -> r2
                    r2 = lit 5
                    skip 1 unless r0
                    r2 = lit 6";
    // PROM, FORCE, LIT, SKIP, perhaps LIT, and two block ends.
    assert_eq!(end_of(text, &[-1, 0]), (End::Integer(5), 6));
    assert_eq!(end_of(text, &[-1, 1]), (End::Integer(6), 7));
}

#[test]
fn skip_of_a_call_opens_no_frame() {
    let text = "version 0.0(r0: int) -> int
                  block 0 quiet -> r0
                    skip 1 unless r0
                    r0 = call 0.0(r0)";
    assert_eq!(end_of(text, &[-1, 0]), (End::Integer(0), 2));
    // Each of 31 calls takes two steps, and so does the SKIP of the 32nd frame.
    assert_eq!(end_of(text, &[-1, 1]), (End::Deep, 2 * 31 + 1));
}

#[test]
fn skip_of_an_emptying_instruction_leaves_its_register() {
    let text = "version 0.0(r0: own vector, r1: int) -> int
                  registers r2: own vector
                  block 0 quiet -> r1
                    skip 1 unless r1
                    r2 = use r0";
    for (argument, left, taken) in [
        (0, Some(Value::Vector(0)), None),
        (3, None, Some(Value::Vector(0))),
    ] {
        let mut run = Run::begin(text, &[1, 9, -1, argument]);
        run.steps(if argument == 0 { 1 } else { 2 });
        assert_eq!(run.register(0, 0), left);
        assert_eq!(run.register(0, 2), taken);
    }
}

/// A run of an image that question 14 refuses: a SKIP before some MOVEs.
fn refused_run(n: u8, moves: usize, argument: Integer) -> (Program, State) {
    let moves = "r0 = move r0\n".repeat(moves);
    let text = format!("version 0.0(r0: int) -> int\nblock 0 quiet -> r0\nskip {n} unless r0\n");
    let program = Program::ordered(&image(&(text + &moves))).expect("records in order");
    let state = State::begin(&program, PORTAL, 0, 0, &[-1, argument], &UNTOUCHED);
    (program, state.expect("a run begins"))
}

#[test]
fn skip_past_position_48_is_stuck() {
    for (n, moves) in [(48, 0), (48, 47), (49, 3), (255, 3)] {
        let (program, state) = refused_run(n, moves, 0);
        let before = state.clone();
        assert_eq!(state.step(&program), (before, Said::Stuck), "{n}");
        let (program, state) = refused_run(n, moves, 1);
        assert_eq!(state.step(&program).1, Said::GoesOn, "{n}");
    }
}

#[test]
fn skip_past_the_end_within_48_is_a_step_and_the_next_one_is_stuck() {
    for (n, moves) in [(1, 0), (4, 3), (47, 3), (47, 46)] {
        let (program, state) = refused_run(n, moves, 0);
        let (after, said) = state.step(&program);
        assert_eq!(said, Said::GoesOn);
        assert_eq!(after.activations[0].next, 1 + usize::from(n));
        let before = after.clone();
        assert_eq!(after.step(&program), (before, Said::Stuck), "{n}");
    }
    // A part of 47 ends where a block of 48 does.
    let (program, state) = refused_run(47, 47, 0);
    let (after, _) = state.step(&program);
    assert_eq!(after.step(&program).1, Said::Ended(End::Integer(0)));
}
