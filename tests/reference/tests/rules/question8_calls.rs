//! Question 8: arguments and results of CALL and DISPATCH.

use super::question8_operands::{fits, with_every_type};
use crate::support::{accepts, refuses};

/// Each parameter type with the registers that it takes.
const TAKEN: [(&str, &[u8]); 8] = [
    ("any", &[0, 1, 2, 3, 4, 5]),
    ("value", &[1, 2, 3]),
    ("int", &[2]),
    ("vector", &[3]),
    ("quiet promise", &[4]),
    ("reflective promise", &[4, 5]),
    ("own vector", &[6]),
    ("borrow vector", &[3, 6, 7]),
];

/// Each return type with the registers that its result may enter.
const ENTERED: [(&str, &[u8]); 4] = [
    ("value", &[0, 1]),
    ("int", &[0, 1, 2]),
    ("vector", &[0, 1, 3]),
    ("own vector", &[0, 1, 3, 6]),
];

/// The registers with which the text fits.
#[track_caller]
fn fitting(text: impl Fn(u8) -> String) -> Vec<u8> {
    (0..8).filter(|&register| fits(&text(register))).collect()
}

#[test]
fn question8_call_gives_parameters_what_their_types_take() {
    for (parameter, taken) in TAKEN {
        let text = |register| {
            let caller = with_every_type(&format!("r2 = call 1.0(r{register})"));
            format!(
                "{caller}
                 version 1.0(r0: {parameter}) -> int
                   registers r1: int
                   block 0 quiet -> r1
                     r1 = lit 0"
            )
        };
        assert_eq!(fitting(text), taken, "{parameter}");
    }
}

#[test]
fn question8_dispatch_is_judged_by_its_own_signature() {
    for (parameter, taken) in TAKEN {
        let text = |register| {
            let dispatch = format!("r2 = dispatch 0(r{register}: {parameter}) -> int quiet");
            with_every_type(&dispatch)
        };
        assert_eq!(fitting(text), taken, "{parameter}");
    }
}

#[test]
fn question8_result_of_a_call_enters_what_its_return_type_allows() {
    for (returns, entered) in ENTERED {
        let (ty, instruction) = match returns {
            "value" | "int" => ("int", "r0 = lit 1"),
            _ => ("own vector", "r0 = vec []"),
        };
        let text = |d| {
            let caller = with_every_type(&format!("r{d} = call 1.0()"));
            format!(
                "{caller}
                 version 1.0() -> {returns}
                   registers r0: {ty}
                   block 0 quiet -> r0
                     {instruction}"
            )
        };
        assert_eq!(fitting(text), entered, "{returns}");
    }
}

#[test]
fn question8_result_of_a_dispatch_enters_what_its_return_type_allows() {
    for (returns, entered) in ENTERED {
        let text = |d| with_every_type(&format!("r{d} = dispatch 0() -> {returns} quiet"));
        assert_eq!(fitting(text), entered, "{returns}");
    }
}

#[test]
fn question8_owned_register_stands_only_once_in_the_call() {
    let dispatch =
        |arguments: &str| with_every_type(&format!("r2 = dispatch 0({arguments}) -> int quiet"));
    refuses(&dispatch("r6: own vector, r6: own vector"), 8, 30);
    refuses(&dispatch("r6: own vector, r6: borrow vector"), 8, 30);
    refuses(&dispatch("r6: borrow vector, r6: own vector"), 8, 30);
}

#[test]
fn question8_d_does_not_count_among_the_arguments() {
    // The owned register that is emptied is d as well.
    let text = "r6 = dispatch 0(r6: own vector) -> own vector quiet";
    accepts(&with_every_type(text));
}

#[test]
fn question8_one_register_may_go_to_several_parameters_that_empty_nothing() {
    for arguments in [
        "r6: borrow vector, r6: borrow vector",
        "r3: borrow vector, r3: vector",
        "r2: int, r2: any, r2: value",
    ] {
        accepts(&with_every_type(&format!(
            "r2 = dispatch 0({arguments}) -> int quiet"
        )));
    }
}

#[test]
fn question8_second_argument_is_judged_by_the_second_parameter() {
    let text = "r2 = dispatch 0(r2: int, r3: int) -> int quiet";
    refuses(&with_every_type(text), 8, 30);
}
