//! "Sixty-four bits": the form and the range before, beside those in force.

use crate::support::{refuses_image, PORTAL, UNTOUCHED};
use cases::{giving, image};
use reference::bounds::Steps;
use reference::{
    kinds, verdict, widened, Answer, End, Form, Instruction, Integer, Program, Range, State,
    Verdict,
};

/// The image of a text in the form before: its literals fit 32 bits.
fn narrow(text: &str) -> Vec<u8> {
    let wide = image(text);
    let records = reference::questions::records(&wide).expect("records");
    let bytes = records.into_iter().flat_map(|placed| match placed.item {
        reference::Record::Instruction(Instruction::Lit { d, value }) => {
            let value = i32::try_from(value).expect("a 32-bit literal");
            [&[9, 0, 16, 0, d][..], &value.to_le_bytes()].concat()
        }
        item => item.bytes(),
    });
    bytes.collect()
}

/// A run of 0.0 from its start in the form and the range before, and under those
/// in force once its literals are of kind 36.
fn both(text: &str, words: &[Integer], budget: Steps) -> [(Answer, Steps); 2] {
    let old = narrow(text);
    let new = widened(&old).expect("records");
    assert_eq!(new, image(text));
    let run = |form, range, image: &[u8]| {
        let program = Program::accept_in(form, image).expect("an accepted image");
        let state = State::begin(&program, PORTAL, 0, 0, words, &UNTOUCHED).expect("a run begins");
        let (_, answer, steps) = state.budget_to(range, &program, budget, &mut UNTOUCHED.clone());
        (answer, steps)
    };
    [
        run(Form::Narrow, Range::NARROW, &old),
        run(Form::Wide, Range::WIDE, &new),
    ]
}

/// A body that gives `r0 op r1`.
fn arith(op: &str) -> String {
    format!("version 0.0(r0: int, r1: int) -> int\nblock 0 quiet -> r0\nr0 = {op} r0, r1")
}

#[test]
fn a_literal_of_kind_36_is_read_from_eight_bytes() {
    for (number, bytes) in [
        (1_i64 << 32, [0, 0, 0, 0, 1, 0, 0, 0]),
        (Integer::MAX, [255, 255, 255, 255, 255, 255, 255, 127]),
        (Integer::MIN, [0, 0, 0, 0, 0, 0, 0, 128]),
    ] {
        let image = giving(&[&[13, 0, 36, 0, 0][..], &bytes].concat());
        let program = Program::accept(&image).expect("an accepted image");
        let literal = &program.versions[0].blocks[0].instructions[0].item;
        let (d, value) = (0, number);
        assert_eq!(*literal, Instruction::Lit { d, value });
    }
}

#[test]
fn kind_16_and_short_literals_are_refused_by_3() {
    refuses_image(&giving(&[9, 0, 16, 0, 0, 5, 0, 0, 0]), 3, 23);
    let eight = [13, 0, 16, 0, 0, 5, 0, 0, 0, 0, 0, 0, 0];
    refuses_image(&giving(&eight), 3, 23);
    refuses_image(&giving(&[9, 0, 36, 0, 0, 5, 0, 0, 0]), 3, 23);
    refuses_image(&giving(&eight.map(|b| b.max(1))[..12]), 2, 23);
}

#[test]
fn each_form_knows_its_own_literal_alone() {
    assert_eq!(Form::Narrow.literal(), kinds::NARROW_LIT);
    assert_eq!(Form::Wide.literal(), kinds::LIT);
    let old = giving(&[9, 0, 16, 0, 0, 5, 0, 0, 0]);
    let new = giving(&[13, 0, 36, 0, 0, 5, 0, 0, 0, 0, 0, 0, 0]);
    let accepts = |form, image: &[u8]| Program::accept_in(form, image).map_err(|no| no.number);
    assert!(accepts(Form::Narrow, &old).is_ok());
    assert_eq!(accepts(Form::Wide, &old), Err(3));
    assert_eq!(accepts(Form::Narrow, &new), Err(3));
    assert!(accepts(Form::Wide, &new).is_ok());
}

#[test]
fn widened_literals_keep_their_sign_and_all_else_its_bytes() {
    for (old, new) in [
        ([5, 0, 0, 0], [5, 0, 0, 0, 0, 0, 0, 0]),
        (
            [0xFD, 255, 255, 255],
            [0xFD, 255, 255, 255, 255, 255, 255, 255],
        ),
        ([255, 255, 255, 127], [255, 255, 255, 127, 0, 0, 0, 0]),
        ([0, 0, 0, 128], [0, 0, 0, 128, 255, 255, 255, 255]),
    ] {
        let old = giving(&[&[9, 0, 16, 0, 0][..], &old].concat());
        let new = giving(&[&[13, 0, 36, 0, 0][..], &new].concat());
        assert_eq!(widened(&old), Some(new));
    }
    assert_eq!(widened(&cases::IDENTITY), Some(cases::IDENTITY.to_vec()));
}

#[test]
fn the_range_before_ends_at_32_bits() {
    for (op, a, b, new) in [
        ("add", 2_147_483_647, 1, 2_147_483_648),
        ("sub", -2_147_483_648, 1, -2_147_483_649),
        ("mul", 65_536, 32_768, 2_147_483_648),
        ("mul", -46_341, 46_341, -2_147_488_281),
        ("div", -2_147_483_648, -1, 2_147_483_648),
    ] {
        let undef = (Answer::Ended(End::Undef), 1);
        let done = (Answer::Ended(End::Integer(new)), 2);
        assert_eq!(both(&arith(op), &[-1, a, -1, b], 9), [undef, done], "{op}");
    }
}

#[test]
fn what_stays_in_the_range_before_is_the_same_in_both() {
    for (op, a, b, result) in [
        ("add", 2_147_483_646, 1, 2_147_483_647),
        ("sub", -2_147_483_647, 1, -2_147_483_648),
        ("mul", 65_536, -32_768, -2_147_483_648),
        ("mul", 46_340, 46_340, 2_147_395_600),
        ("div", -2_147_483_648, 1, -2_147_483_648),
        ("div", -7, 2, -4),
        ("less", -2_147_483_648, 2_147_483_647, 1),
    ] {
        let done = (Answer::Ended(End::Integer(result)), 2);
        assert_eq!(both(&arith(op), &[-1, a, -1, b], 9), [done; 2], "{op}");
    }
}

#[test]
fn division_by_0_and_a_budget_used_up_are_the_same_in_both() {
    let undef = (Answer::Ended(End::Undef), 1);
    assert_eq!(both(&arith("div"), &[-1, 7, -1, 0], 9), [undef; 2]);
    let steps = (Answer::Steps, 1);
    assert_eq!(both(&arith("add"), &[-1, 7, -1, 0], 1), [steps; 2]);
}

#[test]
fn literals_of_both_forms_are_the_same_integers() {
    for integer in [0, 5, -3, 2_147_483_647, -2_147_483_648] {
        let text = "version 0.0() -> int\nregisters r0: int\nblock 0 quiet -> r0\nr0 = lit ";
        let done = (Answer::Ended(End::Integer(integer)), 2);
        assert_eq!(both(&format!("{text}{integer}"), &[], 9), [done; 2]);
    }
}

/// 64 versions of so many literals each, in the form before.
fn versions_of_literals(literals: u8) -> Vec<u8> {
    let version = |index: u8| {
        let head = [11, 0, 1, 0, index / 4, index % 4, 0, 1, 2, 1, 2];
        let (level, block) = ([5, 0, 3, 0, 0], [7, 0, 2, 0, 0, 0, literals + 1]);
        let literals = [9, 0, 16, 0, 0, index, 255, 255, 255].repeat(literals.into());
        let arith = [8, 0, 24, 0, 0, 4, 0, 0];
        [&head[..], &level, &block, &literals, &arith].concat()
    };
    (0..64).flat_map(version).collect()
}

#[test]
fn a_longer_image_is_accepted_unless_it_is_too_long() {
    // A version takes 31 bytes and 13 for each literal: 64 × 512 and 64 × 525 bytes.
    for (literals, length) in [(37, 32_768), (38, 33_600)] {
        let old = versions_of_literals(literals);
        assert!(Program::accept_in(Form::Narrow, &old).is_ok());
        let new = widened(&old).expect("records");
        assert_eq!(new.len(), length);
        if literals == 37 {
            assert_eq!(verdict(&new), Verdict::Accepted(64));
        } else {
            refuses_image(&new, 1, 0);
        }
    }
}
