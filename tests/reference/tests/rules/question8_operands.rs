//! Question 8: what each instruction takes and gives, over registers of every type.

use crate::support::{accepts, refuses};
use cases::image;
use reference::{verdict, Refusal, Verdict};

/// r0 any, r1 value, r2 int, r3 vector, r4 quiet promise, r5 reflective
/// promise, r6 own vector, r7 borrow vector; the instruction stands at 30.
pub fn with_every_type(instruction: &str) -> String {
    format!(
        "version 0.0(r0: any, r1: value, r2: int, r3: vector, r4: quiet promise, \
                     r5: reflective promise, r6: own vector, r7: borrow vector) -> int
           block 0 reflective -> r2
             {instruction}"
    )
}

/// Do the instruction's types fit? Flow is not asked, where it is of no concern.
#[track_caller]
pub fn fits(text: &str) -> bool {
    let types_fail = Refusal {
        number: 8,
        offset: 30,
    };
    match verdict(&image(text)) {
        Verdict::Accepted(_) => true,
        Verdict::Refused(refusal) if refusal.number == 10 => true,
        Verdict::Refused(refusal) => {
            assert_eq!(refusal, types_fail, "{text}");
            false
        }
    }
}

/// Asserts that the instruction fits with exactly these registers in its place.
#[track_caller]
fn takes<const N: usize>(instruction: impl Fn([u8; N]) -> String, expected: &[[u8; N]]) {
    let all = 8_usize.pow(N as u32);
    let registers = |n: usize| std::array::from_fn(|place| (n >> (3 * place)) as u8 % 8);
    let fitting = (0..all).map(registers);
    let mut fitting: Vec<[u8; N]> = fitting
        .filter(|&r| fits(&with_every_type(&instruction(r))))
        .collect();
    fitting.sort_unstable();
    assert_eq!(fitting, expected);
}

#[test]
fn question8_lit_gives_an_integer() {
    takes(|[d]| format!("r{d} = lit 5"), &[[0], [1], [2]]);
}

#[test]
fn question8_move_takes_a_shared_source_within_d() {
    let expected = [
        [0, 0],
        [0, 1],
        [0, 2],
        [0, 3],
        [0, 4],
        [0, 5],
        [1, 1],
        [1, 2],
        [1, 3],
        [2, 2],
        [3, 3],
        [4, 4],
        [5, 4],
        [5, 5],
    ];
    takes(|[d, a]| format!("r{d} = move r{a}"), &expected);
}

#[test]
fn question8_use_takes_an_owned_vector_and_gives_a_fresh_one() {
    let expected = [[0, 6], [1, 6], [3, 6], [6, 6]];
    takes(|[d, a]| format!("r{d} = use r{a}"), &expected);
}

#[test]
fn question8_dup_takes_any_vector_and_gives_a_fresh_one() {
    let mut expected = vec![];
    for d in [0, 1, 3, 6] {
        expected.extend([[d, 3], [d, 6], [d, 7]]);
    }
    takes(|[d, a]| format!("r{d} = dup r{a}"), &expected);
}

#[test]
fn question8_vec_takes_integers_and_gives_a_fresh_vector() {
    let expected = [[0, 2, 2], [1, 2, 2], [3, 2, 2], [6, 2, 2]];
    takes(|[d, a, b]| format!("r{d} = vec [r{a}, r{b}]"), &expected);
    takes(|[d]| format!("r{d} = vec []"), &[[0], [1], [3], [6]]);
}

#[test]
fn question8_len_takes_any_vector_and_gives_an_integer() {
    let mut expected = vec![];
    for d in [0, 1, 2] {
        expected.extend([[d, 3], [d, 6], [d, 7]]);
    }
    takes(|[d, a]| format!("r{d} = len r{a}"), &expected);
}

#[test]
fn question8_get_takes_any_vector_and_an_integer_and_gives_an_integer() {
    let mut expected = vec![];
    for d in [0, 1, 2] {
        expected.extend([[d, 3, 2], [d, 6, 2], [d, 7, 2]]);
    }
    takes(|[d, a, i]| format!("r{d} = get r{a}[r{i}]"), &expected);
}

#[test]
fn question8_set_takes_an_owned_vector_and_integers() {
    takes(|[a, i, e]| format!("set r{a}[r{i}] = r{e}"), &[[6, 2, 2]]);
}

#[test]
fn question8_arith_takes_and_gives_integers() {
    let expected = [[0, 2, 2], [1, 2, 2], [2, 2, 2]];
    for op in ["add", "sub", "mul", "div", "less"] {
        takes(|[d, a, b]| format!("r{d} = {op} r{a}, r{b}"), &expected);
    }
}

#[test]
fn question8_select_takes_and_gives_integers() {
    let expected = [[0, 2, 2, 2], [1, 2, 2, 2], [2, 2, 2, 2]];
    let select = |[d, c, a, b]: [u8; 4]| format!("r{d} = select r{c} ? r{a} : r{b}");
    takes(select, &expected);
}

#[test]
fn question8_cast_takes_any_shared_source_to_any_shared_d() {
    let mut expected = vec![];
    for d in 0..6 {
        expected.extend((0..6).map(|a| [d, a]));
    }
    takes(|[d, a]| format!("r{d} = cast r{a}"), &expected);
}

#[test]
fn question8_named_gives_kind_1() {
    takes(|[d]| format!("r{d} = named x0"), &[[0], [1]]);
}

#[test]
fn question8_store_takes_a_shared_source_within_kind_1() {
    takes(|[a]| format!("store x0 = r{a}"), &[[1], [2], [3]]);
}

#[test]
fn question8_prom_gives_kind_4_or_5_by_its_blocks_mark() {
    let quiet = |[d]: [u8; 1]| format!("r{d} = prom 1\nblock 1 quiet -> r2");
    takes(quiet, &[[0], [4], [5]]);
    let reflective = |[d]: [u8; 1]| format!("r{d} = prom 1\nblock 1 reflective -> r2");
    takes(reflective, &[[0], [5]]);
}

#[test]
fn question8_force_takes_kind_4_or_5_and_gives_an_integer() {
    let expected = [[0, 4], [0, 5], [1, 4], [1, 5], [2, 4], [2, 5]];
    takes(|[d, a]| format!("r{d} = force r{a}"), &expected);
}

#[test]
fn question8_peek_takes_kind_4_or_5_and_gives_kind_1() {
    let expected = [[0, 4], [0, 5], [1, 4], [1, 5]];
    takes(|[d, a]| format!("r{d} = peek r{a}.x0"), &expected);
}

#[test]
fn question8_poke_takes_kind_4_or_5_and_a_shared_source_within_kind_1() {
    let expected = [[4, 1], [4, 2], [4, 3], [5, 1], [5, 2], [5, 3]];
    takes(|[a, e]| format!("poke r{a}.x0 = r{e}"), &expected);
}

#[test]
fn question8_skip_takes_an_integer() {
    takes(|[a]| format!("skip 0 unless r{a}"), &[[2]]);
}

#[test]
fn question8_nothing_enters_a_borrowed_register() {
    for instruction in ["r7 = dup r7", "r7 = vec []", "r7 = move r3", "r7 = cast r3"] {
        refuses(&with_every_type(instruction), 8, 30);
    }
}

#[test]
fn question8_use_may_enter_another_owned_register() {
    accepts(
        "version 0.0(r0: own vector) -> own vector
           registers r1: own vector
           block 0 quiet -> r1
             r1 = use r0",
    );
}

#[test]
fn question8_parameter_may_be_assigned_unless_it_is_borrowed() {
    accepts(&with_every_type("r6 = vec []"));
    accepts(&with_every_type("r2 = lit 1"));
    refuses(&with_every_type("r7 = vec []"), 8, 30);
}
