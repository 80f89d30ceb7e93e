//! "Dispatch search": how many versions the search of a DISPATCH looks at.

use crate::steps_dispatch::{dispatching, INTEGER, VECTOR};
use crate::support::Run;
use cases::image;
use reference::{End, Integer, Program, Said, Search, State, Value};

/// The steps before the DISPATCH of `dispatching`.
const BEFORE: usize = 3;

/// One version for each kind of argument, and one with no argument.
const VERSIONS: [&str; 5] = [
    "(r0: int) -> int",
    "(r0: vector) -> int",
    "(r0: quiet promise) -> int",
    "(r0: reflective promise) -> int",
    "() -> int",
];

/// What the search of a run comes to, in words: how many are looked at, and of
/// how many.
fn words_of(run: &Run) -> Option<(u8, u8)> {
    let search = run.state.search(&run.program)?;
    Some((search.looked(), search.versions))
}

/// Asserts that the DISPATCH with this signature looks at so many versions of so
/// many, and that what it enters agrees: the last that it looked at, or none.
#[track_caller]
fn looks_at(signature: &str, versions: &[&str], words: &[Integer], looked: u8, fits: bool) {
    let mut run = Run::begin(&dispatching(signature, versions), words);
    run.steps(BEFORE);
    let found = run.state.search(&run.program);
    let first = fits.then(|| looked - 1);
    let all = versions.len() as u8;
    let expected = Search {
        first,
        versions: all,
    };
    assert_eq!(found, Some(expected));
    assert_eq!(words_of(&run), Some((looked, all)));
    let said = run.step();
    match first {
        Some(number) => {
            assert_eq!(said, Said::GoesOn);
            assert_eq!(run.state.frames[1].version, number);
        }
        None => {
            assert_eq!(said, Said::Ended(End::Undef));
            assert_eq!(looked, all, "all of the function");
        }
    }
}

#[test]
fn the_search_ends_at_the_first_that_fits() {
    let four = &VERSIONS[..4];
    looks_at("(r0: any) -> value quiet", four, &INTEGER, 1, true);
    looks_at("(r0: any) -> value quiet", four, &VECTOR, 2, true);
    looks_at("(r5: any) -> value quiet", four, &INTEGER, 3, true);
    looks_at("(r6: any) -> value quiet", four, &INTEGER, 4, true);
    let twice = ["(r0: any) -> int", "(r0: int) -> int"];
    looks_at("(r0: any) -> value quiet", &twice, &INTEGER, 1, true);
}

#[test]
fn all_of_the_function_are_looked_at_where_none_fits() {
    for count in 1..=4 {
        let versions = &VERSIONS[5 - count..];
        looks_at(
            "(r0: any) -> value quiet",
            versions,
            &INTEGER,
            count as u8,
            false,
        );
    }
}

#[test]
fn a_function_with_fewer_versions_has_so_many() {
    for count in 1..=3 {
        let versions = &VERSIONS[..count];
        looks_at("(r0: any) -> value quiet", versions, &INTEGER, 1, true);
        let last: Vec<&str> = versions.iter().rev().copied().collect();
        let looked = count as u8;
        looks_at("(r0: any) -> value quiet", &last, &INTEGER, looked, true);
    }
}

#[test]
fn a_version_that_is_passed_over_counts_whatever_does_not_fit() {
    // The count, an ownership, the return, the mark, and the return's ownership.
    let signature = "(r2: vector) -> int quiet";
    for passed_over in [
        "() -> int",
        "(r0: borrow vector) -> int",
        "(r0: vector) -> value",
        "(r0: vector) -> int;reflective",
        "(r0: int) -> int",
    ] {
        let versions = [passed_over, "(r0: vector) -> int"];
        looks_at(signature, &versions, &INTEGER, 2, true);
        looks_at(signature, &versions[..1], &INTEGER, 1, false);
    }
}

#[test]
fn a_search_without_arguments_looks_too() {
    let versions = ["(r0: int) -> int", "() -> int"];
    looks_at("() -> value quiet", &versions, &INTEGER, 2, true);
}

#[test]
fn a_state_elsewhere_has_no_search() {
    let text = dispatching("(r0: any) -> value quiet", &VERSIONS[..2]);
    let mut run = Run::begin(&text, &INTEGER);
    for _ in 0..BEFORE {
        assert_eq!(words_of(&run), None);
        run.steps(1);
    }
    assert_eq!(words_of(&run), Some((1, 2)));
    // The call's LIT and its end, and CAST and the end of 0.0.
    for _ in 0..4 {
        run.steps(1);
        assert_eq!(words_of(&run), None);
    }
    assert_eq!(run.step(), Said::Ended(End::Integer(0)));
    assert_eq!(words_of(&run), None, "DONE stands nowhere");
}

#[test]
fn undef_without_a_fit_stands_at_its_dispatch() {
    let text = dispatching("(r0: any) -> value quiet", &VERSIONS[1..4]);
    let mut run = Run::begin(&text, &INTEGER);
    run.steps(BEFORE);
    assert_eq!(words_of(&run), Some((3, 3)));
    assert_eq!(run.step(), Said::Ended(End::Undef));
    assert_eq!(words_of(&run), Some((3, 3)));
    assert_eq!(run.step(), Said::Ended(End::Undef));
    assert_eq!(words_of(&run), Some((3, 3)));
}

#[test]
fn undef_elsewhere_and_deep_at_a_dispatch() {
    let text = "version 0.0(r0: int) -> int
                  registers r1: int
                  block 0 quiet -> r0
                    r1 = lit 0
                    r0 = div r0, r1";
    let mut run = Run::begin(text, &[-1, 1]);
    run.steps(1);
    assert_eq!(run.step(), Said::Ended(End::Undef));
    assert_eq!(words_of(&run), None);
    let text = "version 0.0(r0: int) -> int
                  block 0 quiet -> r0
                    r0 = dispatch 0(r0: int) -> int quiet
                version 0.1(r0: vector) -> int
                  registers r1: int
                  block 0 quiet -> r1
                    r1 = lit 0";
    let mut run = Run::begin(text, &[-1, 1]);
    run.steps(31);
    assert_eq!(run.step(), Said::Ended(End::Deep));
    assert_eq!(words_of(&run), Some((1, 2)));
}

#[test]
fn the_newest_activation_says_where_a_state_stands() {
    // 1.0 forces the block of 0.0, whose DISPATCH reads the registers of 0.0.
    let text = "version 0.0(r0: vector, r1: int) -> int
                  registers r2: quiet promise, r3: int
                  block 0 quiet -> r3
                    r2 = prom 1
                    r3 = call 1.0(r1, r2)
                  block 1 quiet -> r3
                    r3 = dispatch 2(r0: value) -> int quiet
                version 1.0(r0: int, r1: quiet promise) -> int
                  block 0 quiet -> r0
                    r0 = force r1
                version 2.0(r0: int) -> int
                  block 0 quiet -> r0
                version 2.1(r0: vector) -> int
                  registers r1: int
                  block 0 quiet -> r1
                    r1 = len r0";
    let mut run = Run::begin(text, &[2, 8, 9, -1, 5]);
    run.steps(3);
    assert_eq!(run.state.frames.len(), 2);
    assert_eq!(words_of(&run), Some((2, 2)));
    run.steps(1);
    assert_eq!(run.state.frames[2].version, 1);
    assert_eq!(words_of(&run), None);
}

#[test]
fn an_argument_without_a_kind_makes_no_search() {
    let text = dispatching("(r0: any) -> value quiet", &VERSIONS[..2]);
    let mut run = Run::begin(&text, &INTEGER);
    run.steps(BEFORE);
    let with = |value| {
        let mut state = run.state.clone();
        state.frames[0].registers[0] = value;
        state.search(&run.program)
    };
    assert_eq!(with(None), None);
    assert_eq!(with(Some(Value::Vector(63))), None);
    assert_eq!(with(Some(Value::Vector(64))), None);
    assert_eq!(with(Some(Value::Promise(64))), None);
    assert!(with(Some(Value::Integer(1))).is_some());
}

#[test]
fn a_new_image_has_its_own_versions() {
    let signature = "(r0: any) -> value quiet";
    let old = dispatching(signature, &["(r0: int) -> int"]);
    let new = image(&dispatching(
        signature,
        &["() -> int", "(r0: vector) -> int", "(r0: int) -> int"],
    ));
    let mut run = Run::begin(&old, &INTEGER);
    run.steps(BEFORE);
    assert_eq!(words_of(&run), Some((1, 1)));
    reference::change(&image(&old), &new, &run.state).expect("a change that is taken");
    run.program = Program::accept(&new).expect("an accepted image");
    assert_eq!(words_of(&run), Some((3, 3)));
}

#[test]
fn a_state_without_calls_has_no_search() {
    let text = dispatching("(r0: any) -> value quiet", &VERSIONS[..1]);
    let run = Run::begin(&text, &INTEGER);
    let empty = State {
        frames: vec![],
        activations: vec![],
        ..run.state.clone()
    };
    assert_eq!(empty.search(&run.program), None);
    let frameless = State {
        frames: vec![],
        ..run.state.clone()
    };
    assert_eq!(frameless.search(&run.program), None);
}
