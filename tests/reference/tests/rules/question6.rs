//! Question 6: type bytes at their places.

use crate::support::refuses;
use cases::image;
use reference::{questions_1_to_7, Refusal};

/// The bytes with which a text passes question 6; all others fail at the offset.
#[track_caller]
fn passing_bytes(offset: usize, text: impl Fn(&str) -> String) -> Vec<u8> {
    let number = 6;
    let passes = |byte: &u8| match questions_1_to_7(&image(&text(&format!("0x{byte:02X}")))) {
        None => true,
        Some(refusal) => {
            assert_eq!(refusal, Refusal { number, offset }, "type byte {byte}");
            false
        }
    };
    (0..=255).filter(passes).collect()
}

/// A version with a DISPATCH at offset 23.
fn dispatching(signature: &str) -> String {
    format!(
        "version 0.0(r0: int) -> int
           block 0 quiet -> r0
             r0 = dispatch 0{signature} quiet"
    )
}

#[test]
fn question6_return_types() {
    let text = |ty: &str| format!("version 0.0(r0: int) -> {ty}\nblock 0 quiet -> r0");
    assert_eq!(passing_bytes(0, text), [1, 2, 3, 0x13]);
}

#[test]
fn question6_parameter_types() {
    let text = |ty: &str| format!("version 0.0(r0: {ty}) -> int\nblock 0 quiet -> r0");
    let allowed = [0, 1, 2, 3, 4, 5, 0x13, 0x23];
    assert_eq!(passing_bytes(0, text), allowed);
}

#[test]
fn question6_types_of_registers_that_are_no_parameters() {
    let text =
        |ty: &str| format!("version 0.0(r0: int) -> int\nregisters r1: {ty}\nblock 0 quiet -> r0");
    assert_eq!(passing_bytes(0, text), [0, 1, 2, 3, 4, 5, 0x13]);
}

#[test]
fn question6_return_type_of_a_dispatch() {
    let text = |ty: &str| dispatching(&format!("(r0: int) -> {ty}"));
    assert_eq!(passing_bytes(23, text), [1, 2, 3, 0x13]);
}

#[test]
fn question6_argument_types_of_a_dispatch() {
    let text = |ty: &str| dispatching(&format!("(r0: int, r0: {ty}) -> int"));
    let allowed = [0, 1, 2, 3, 4, 5, 0x13, 0x23];
    assert_eq!(passing_bytes(23, text), allowed);
}

#[test]
fn question6_is_put_to_the_whole_image_before_question_7() {
    refuses(
        "version 0.0(r0: int) -> int
           block 0 quiet -> r9
             r0 = dispatch 9(r0: 0x06) -> int quiet",
        6,
        23,
    );
}
