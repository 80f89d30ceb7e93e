//! "Steps": LIT, MOVE, ARITH, SELECT and CAST.

use crate::support::{end_of, gives, undefined, Run};
use reference::{End, Integer, Said, Value};

const LEAST: Integer = -9_223_372_036_854_775_808;
const GREATEST: Integer = 9_223_372_036_854_775_807;

/// A version that gives `r0 op r1`.
fn arith(op: &str) -> String {
    format!("version 0.0(r0: int, r1: int) -> int\nblock 0 quiet -> r0\nr0 = {op} r0, r1")
}

#[track_caller]
fn operation(op: &str, a: Integer, b: Integer, result: Integer) {
    gives(&arith(op), &[-1, a, -1, b], result);
}

#[track_caller]
fn no_operation(op: &str, a: Integer, b: Integer) {
    undefined(&arith(op), &[-1, a, -1, b]);
}

#[test]
fn lit_gives_its_integer() {
    for integer in [0, 1, -1, LEAST, GREATEST] {
        let text = "version 0.0() -> int\nregisters r0: int\nblock 0 quiet -> r0\nr0 = lit ";
        gives(&format!("{text}{integer}"), &[], integer);
    }
}

#[test]
fn move_leaves_its_source() {
    let text = "version 0.0(r0: vector) -> int
                  registers r1: any, r2: int
                  block 0 quiet -> r2
                    r1 = move r0
                    r2 = len r0";
    let mut run = Run::begin(text, &[1, 5]);
    run.steps(1);
    assert_eq!(run.register(0, 0), Some(Value::Vector(0)));
    assert_eq!(run.register(0, 1), Some(Value::Vector(0)));
}

#[test]
fn add_is_undef_only_out_of_range() {
    operation("add", 40, 2, 42);
    operation("add", GREATEST, 0, GREATEST);
    operation("add", LEAST, GREATEST, -1);
    operation("add", GREATEST - 1, 1, GREATEST);
    operation("add", LEAST + 1, -1, LEAST);
    no_operation("add", GREATEST, 1);
    no_operation("add", LEAST, -1);
}

#[test]
fn subtract_is_undef_only_out_of_range() {
    operation("sub", 40, 2, 38);
    operation("sub", -1, GREATEST, LEAST);
    operation("sub", -1, LEAST, GREATEST);
    no_operation("sub", LEAST, 1);
    no_operation("sub", 0, LEAST);
    no_operation("sub", GREATEST, -1);
}

#[test]
fn multiply_is_undef_only_out_of_range() {
    operation("mul", -6, 7, -42);
    operation("mul", LEAST, 1, LEAST);
    operation("mul", LEAST, 0, 0);
    no_operation("mul", LEAST, -1);
    no_operation("mul", -1, LEAST);
    no_operation("mul", LEAST, LEAST);
    no_operation("mul", GREATEST, GREATEST);
    no_operation("mul", GREATEST, LEAST);
}

#[test]
fn products_that_just_fit_of_each_sign() {
    let root = 3_037_000_499;
    operation("mul", root, root, 9_223_372_030_926_249_001);
    operation("mul", -root, -root, 9_223_372_030_926_249_001);
    operation("mul", root, -root - 1, -9_223_372_033_963_249_500);
    operation("mul", -root, root + 1, -9_223_372_033_963_249_500);
    operation("mul", 1_317_624_576_693_539_401, 7, GREATEST);
    operation("mul", -1_317_624_576_693_539_401, -7, GREATEST);
    operation("mul", 4_294_967_296, -2_147_483_648, LEAST);
    operation("mul", -4_294_967_296, 2_147_483_648, LEAST);
}

#[test]
fn products_that_just_do_not_fit_of_each_sign() {
    let root = 3_037_000_500;
    no_operation("mul", root, root);
    no_operation("mul", -root, -root);
    no_operation("mul", root, -root);
    no_operation("mul", -root, root);
    no_operation("mul", 4_294_967_296, 2_147_483_648);
    no_operation("mul", -4_294_967_296, -2_147_483_648);
    no_operation("mul", -3, 3_074_457_345_618_258_603);
    no_operation("mul", 3, -3_074_457_345_618_258_603);
}

#[test]
fn a_product_whose_low_64_bits_are_0_is_undef() {
    no_operation("mul", 4_294_967_296, 4_294_967_296);
    no_operation("mul", LEAST, 2);
    no_operation("mul", LEAST, -2);
}

#[test]
fn operations_go_past_the_ends_of_32_bits() {
    operation("add", 2_147_483_647, 1, 2_147_483_648);
    operation("sub", -2_147_483_648, 1, -2_147_483_649);
    operation("mul", 65_536, 65_536, 4_294_967_296);
    operation("mul", -2_147_483_648, -1, 2_147_483_648);
    operation("div", -2_147_483_648, -1, 2_147_483_648);
}

#[test]
fn divide_rounds_toward_minus_infinity() {
    operation("div", 7, 2, 3);
    operation("div", -7, 2, -4);
    operation("div", 7, -2, -4);
    operation("div", -7, -2, 3);
    operation("div", 1, 2, 0);
    operation("div", -1, 2, -1);
    operation("div", 1, -2, -1);
    operation("div", -1, -2, 0);
}

#[test]
fn divide_is_exact_where_nothing_is_left() {
    operation("div", 6, 2, 3);
    operation("div", -6, 2, -3);
    operation("div", 6, -2, -3);
    operation("div", -6, -2, 3);
    operation("div", 0, -5, 0);
    operation("div", 0, 5, 0);
}

#[test]
fn divide_at_both_ends_of_the_range() {
    operation("div", LEAST, 1, LEAST);
    operation("div", LEAST, 2, -4_611_686_018_427_387_904);
    operation("div", LEAST, 3, -3_074_457_345_618_258_603);
    operation("div", LEAST, -3, 3_074_457_345_618_258_602);
    operation("div", GREATEST, -1, -9_223_372_036_854_775_807);
    operation("div", GREATEST, 2, 4_611_686_018_427_387_903);
    operation("div", GREATEST, -2, -4_611_686_018_427_387_904);
    operation("div", LEAST, GREATEST, -2);
    operation("div", GREATEST, LEAST, -1);
    operation("div", 1, LEAST, -1);
    operation("div", -1, LEAST, 0);
    operation("div", -1, GREATEST, -1);
    operation("div", LEAST, LEAST, 1);
    operation("div", LEAST + 1, -1, GREATEST);
}

#[test]
fn divide_by_0_is_undef() {
    no_operation("div", 7, 0);
    no_operation("div", 0, 0);
}

#[test]
fn least_integer_divided_by_minus_1_is_undef() {
    no_operation("div", LEAST, -1);
}

#[test]
fn less_gives_1_or_0() {
    operation("less", 1, 2, 1);
    operation("less", 2, 2, 0);
    operation("less", 3, 2, 0);
    operation("less", LEAST, GREATEST, 1);
    operation("less", GREATEST, LEAST, 0);
}

#[test]
fn undef_counts_as_a_step_and_changes_no_register() {
    let mut run = Run::begin(&arith("div"), &[-1, 7, -1, 0]);
    let before = run.state.clone();
    assert_eq!(run.step(), Said::Ended(End::Undef));
    assert_eq!(run.state.frames, before.frames);
    assert_eq!(run.state.activations, before.activations);
    assert_eq!(end_of(&arith("div"), &[-1, 7, -1, 0]), (End::Undef, 1));
}

#[test]
fn select_gives_a_if_c_is_not_0_else_b() {
    let text = "version 0.0(r0: int, r1: int, r2: int) -> int
                  block 0 quiet -> r0
                    r0 = select r0 ? r1 : r2";
    for (c, chosen) in [(1, 10), (0, 20), (-1, 10), (LEAST, 10), (256, 10)] {
        gives(text, &[-1, c, -1, 10, -1, 20], chosen);
    }
}

/// A version that casts its argument to a kind and gives 1.
fn casting(kind: &str) -> String {
    format!(
        "version 0.0(r0: any) -> int
           registers r1: {kind}, r2: int
           block 0 quiet -> r2
             r2 = lit 1
             r1 = cast r0"
    )
}

#[test]
fn cast_of_an_integer() {
    for kind in ["any", "value", "int"] {
        gives(&casting(kind), &[-1, 5], 1);
    }
    for kind in ["vector", "quiet promise", "reflective promise"] {
        undefined(&casting(kind), &[-1, 5]);
    }
}

#[test]
fn cast_of_a_vector() {
    for kind in ["any", "value", "vector"] {
        gives(&casting(kind), &[0], 1);
    }
    for kind in ["int", "quiet promise", "reflective promise"] {
        undefined(&casting(kind), &[0]);
    }
}

/// A version that casts a promise of a block of this mark.
fn casting_promise(mark: &str, kind: &str) -> String {
    format!(
        "version 0.0(r0: int) -> int
           registers r1: any, r2: {kind}
           block 0 quiet -> r0
             r1 = prom 1
             r2 = cast r1
           block 1 {mark} -> r0"
    )
}

#[test]
fn cast_of_a_quiet_promise() {
    for kind in ["any", "quiet promise", "reflective promise"] {
        gives(&casting_promise("quiet", kind), &[-1, 9], 9);
    }
    for kind in ["value", "int", "vector"] {
        undefined(&casting_promise("quiet", kind), &[-1, 9]);
    }
}

#[test]
fn cast_of_a_reflective_promise() {
    for kind in ["any", "reflective promise"] {
        gives(&casting_promise("reflective", kind), &[-1, 9], 9);
    }
    for kind in ["value", "int", "vector", "quiet promise"] {
        undefined(&casting_promise("reflective", kind), &[-1, 9]);
    }
}

#[test]
fn cast_goes_by_the_value_and_not_by_the_declared_kinds() {
    let text = "version 0.0(r0: vector) -> int
                  registers r1: any, r2: vector, r3: int
                  block 0 quiet -> r3
                    r1 = move r0
                    r2 = cast r1
                    r3 = len r2";
    gives(text, &[2, 8, 9], 2);
}
