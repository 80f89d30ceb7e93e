//! "Steps": DISPATCH picks the lowest version that fits.

use crate::support::{end_of, gives, undefined};
use reference::{End, Integer};

/// 0.0 dispatches so on function 1, whose version `v` gives `v`.
pub fn dispatching(signature: &str, versions: &[&str]) -> String {
    let mut text = format!(
        "version 0.0(r0: any, r1: own vector, r2: vector) -> int
           registers r3: int, r4: value, r5: quiet promise, r6: reflective promise, r7: int
           block 0 reflective -> r3
             r7 = lit 7
             r5 = prom 1
             r6 = prom 2
             r4 = dispatch 1{signature}
             r3 = cast r4
           block 1 quiet -> r7
           block 2 reflective -> r7\n"
    );
    for (number, version) in versions.iter().enumerate() {
        let (head, mark) = version.split_once(';').unwrap_or((version, "quiet"));
        let result = head.matches(':').count();
        text += &format!(
            "version 1.{number}{head}
               registers r{result}: int
               block 0 {mark} -> r{result}
                 r{result} = lit {number}\n"
        );
    }
    text
}

/// Words that put an integer into `any`.
pub const INTEGER: [Integer; 4] = [-1, 5, 0, 0];
/// Words that put a vector into `any`.
pub const VECTOR: [Integer; 3] = [0, 0, 0];

#[test]
fn dispatch_picks_the_lowest_that_fits() {
    let versions = [
        "(r0: vector) -> int",
        "(r0: int) -> int",
        "(r0: any) -> int",
    ];
    let text = dispatching("(r0: any) -> value quiet", &versions);
    gives(&text, &INTEGER, 1);
    gives(&text, &VECTOR, 0);
}

#[test]
fn dispatch_without_a_fit_is_undef_and_counts() {
    let versions = ["(r0: vector) -> int", "() -> int"];
    let text = dispatching("(r0: any) -> value quiet", &versions);
    undefined(&text, &INTEGER);
    assert_eq!(end_of(&text, &INTEGER), (End::Undef, 4));
    gives(&text, &VECTOR, 0);
}

#[test]
fn dispatch_wants_an_equal_parameter_count() {
    let versions = ["() -> int", "(r0: any, r1: any) -> int", "(r0: any) -> int"];
    gives(
        &dispatching("(r0: any) -> value quiet", &versions),
        &INTEGER,
        2,
    );
}

#[test]
fn dispatch_wants_equal_ownerships() {
    let versions = [
        "(r0: vector) -> int",
        "(r0: borrow vector) -> int",
        "(r0: own vector) -> int",
    ];
    for (signature, chosen) in [
        ("(r2: vector) -> value quiet", 0),
        ("(r1: borrow vector) -> value quiet", 1),
        ("(r2: borrow vector) -> value quiet", 1),
        ("(r1: own vector) -> value quiet", 2),
    ] {
        gives(&dispatching(signature, &versions), &INTEGER, chosen);
    }
}

#[test]
fn dispatch_wants_a_return_within_its_own() {
    let versions = ["() -> value", "() -> int"];
    gives(&dispatching("() -> value quiet", &versions), &INTEGER, 0);
    gives(&dispatching("() -> int quiet", &versions), &INTEGER, 1);
    undefined(&dispatching("() -> vector quiet", &versions), &INTEGER);
}

#[test]
fn dispatch_wants_an_equal_return_ownership() {
    let text = |signature: &str| {
        format!(
            "version 0.0() -> int
               registers r0: vector, r1: int
               block 0 quiet -> r1
                 r0 = dispatch 1() -> {signature} quiet
                 r1 = len r0
             version 1.0() -> own vector
               registers r0: own vector
               block 0 quiet -> r0
                 r0 = vec []
             version 1.1() -> vector
               registers r0: vector, r1: int
               block 0 quiet -> r0
                 r1 = lit 5
                 r0 = vec [r1]"
        )
    };
    gives(&text("own vector"), &[], 0);
    gives(&text("vector"), &[], 1);
}

#[test]
fn dispatch_wants_a_mark_no_greater() {
    let versions = ["() -> int;reflective", "() -> int;quiet"];
    gives(
        &dispatching("() -> value reflective", &versions),
        &INTEGER,
        0,
    );
    gives(&dispatching("() -> value quiet", &versions), &INTEGER, 1);
    let only_reflective = ["() -> int;reflective"];
    undefined(
        &dispatching("() -> value quiet", &only_reflective),
        &INTEGER,
    );
}

#[test]
fn dispatch_compares_the_kinds_of_values_and_not_of_its_signature() {
    // The signature says any; the value is an integer, which the version takes.
    let versions = ["(r0: int) -> int"];
    gives(
        &dispatching("(r0: any) -> value quiet", &versions),
        &INTEGER,
        0,
    );
    undefined(&dispatching("(r0: any) -> value quiet", &versions), &VECTOR);
}

#[test]
fn dispatch_tells_quiet_from_reflective_promises() {
    let versions = [
        "(r0: quiet promise) -> int",
        "(r0: reflective promise) -> int",
    ];
    let text = dispatching("(r5: any) -> value quiet", &versions);
    gives(&text, &INTEGER, 0);
    let text = dispatching("(r6: any) -> value quiet", &versions);
    gives(&text, &INTEGER, 1);
    let text = dispatching("(r5: any) -> value quiet", &versions[1..]);
    gives(&text, &INTEGER, 0);
}

#[test]
fn dispatch_wants_every_argument_to_match() {
    let versions = [
        "(r0: int, r1: int) -> int",
        "(r0: vector, r1: vector) -> int",
        "(r0: int, r1: vector) -> int",
    ];
    let text = dispatching("(r0: any, r2: any) -> value quiet", &versions);
    gives(&text, &INTEGER, 2);
    gives(&text, &VECTOR, 1);
}
