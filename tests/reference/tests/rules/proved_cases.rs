//! "Proved cases": P1 to P11.

use crate::support::{refuses, refuses_image, PORTAL, UNTOUCHED};
use cases::{image, resulting, CALLS_ITSELF, DIVISION, DUP_AND_SET, IDENTITY, SET_ON_SHARED};
use reference::{begin, Answer, End, Integer, Program, State};

/// A budget given at the start of 0.0: its answer, its steps and the buffer after it.
fn run(image: &[u8], words: &[Integer], budget: u32) -> (Answer, u32, [Integer; 16]) {
    let program = Program::accept(image).expect("an accepted image");
    let state = State::begin(&program, PORTAL, 0, 0, words, &UNTOUCHED).expect("a run begins");
    let mut buffer = UNTOUCHED;
    let (_, answer, steps) = state.budget(&program, budget, &mut buffer);
    (answer, steps, buffer)
}

#[test]
fn p1_empty_image_is_1_at_0() {
    refuses_image(&[], 1, 0);
}

#[test]
fn p2_identity_of_7_with_budget_1_is_done_7_after_1_step() {
    let (answer, steps, buffer) = run(&IDENTITY, &[-1, 7], 1);
    assert_eq!((answer, steps), (Answer::Ended(End::Integer(7)), 1));
    assert_eq!(buffer, UNTOUCHED);
}

#[test]
fn p3_identity_of_7_with_budget_0_is_steps_after_0_steps() {
    let (answer, steps, _) = run(&IDENTITY, &[-1, 7], 0);
    assert_eq!((answer, steps), (Answer::Steps, 0));
}

#[test]
fn p4_identity_without_its_last_byte_is_2_at_16() {
    refuses_image(&IDENTITY[..22], 2, 16);
}

#[test]
fn p5_identity_with_register_type_owned_integer_is_6_at_0() {
    let mut image = IDENTITY;
    image[10] = 0x12;
    refuses_image(&image, 6, 0);
}

#[test]
fn p5_identity_with_return_type_owned_integer_is_6_at_0() {
    let mut image = IDENTITY;
    image[8] = 0x12;
    refuses_image(&image, 6, 0);
}

#[test]
fn p6_result_register_that_nothing_assigned_is_10_at_0() {
    refuses(&resulting("r1"), 10, 0);
}

#[test]
fn p7_dup_set_and_owned_return_is_done_with_the_vector_42() {
    let (answer, steps, buffer) = run(&image(DUP_AND_SET), &[1, 1], 100);
    assert_eq!((answer, steps), (Answer::Ended(End::Vector(1)), 5));
    assert_eq!(buffer[0], 42);
    assert_eq!(buffer[1..], UNTOUCHED[1..]);
}

#[test]
fn p8_dup_set_and_owned_return_on_an_empty_vector_is_undef() {
    let (answer, steps, buffer) = run(&image(DUP_AND_SET), &[0], 100);
    assert_eq!((answer, steps), (Answer::Ended(End::Undef), 4));
    assert_eq!(buffer, UNTOUCHED);
}

#[test]
fn p9_set_on_the_shared_vector_is_8_at_the_set() {
    refuses(SET_ON_SHARED, 8, 14 + 5 + 7 + 6 + 13 + 13);
}

#[test]
fn p10_minus_7_divided_by_2_is_minus_4() {
    let (answer, steps, _) = run(&image(DIVISION), &[-1, -7, -1, 2], 100);
    assert_eq!((answer, steps), (Answer::Ended(End::Integer(-4)), 2));
}

#[test]
fn p11_a_body_that_calls_itself_with_budget_32_is_deep_after_31_steps() {
    let (answer, steps, _) = run(&image(CALLS_ITSELF), &[-1, 5], 32);
    assert_eq!((answer, steps), (Answer::Ended(End::Deep), 31));
}

#[test]
fn identity_begins_from_its_bytes_alone() {
    let state = begin(&IDENTITY, PORTAL, 0, 0, &[-1, 7], &UNTOUCHED).expect("a run begins");
    let program = Program::accept(&IDENTITY).expect("an accepted image");
    let from_program = State::begin(&program, PORTAL, 0, 0, &[-1, 7], &UNTOUCHED);
    assert_eq!(from_program, Ok(state));
}
