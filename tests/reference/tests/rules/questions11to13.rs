//! Questions 11 to 13: how a run begins.

use crate::support::{PORTAL, UNTOUCHED};
use cases::{image, IDENTITY};
use reference::state::Opener;
use reference::{begin, Integer, Refusal, Status, Value};

/// The number of the question that refuses to begin 0.0 with these words.
fn refused_by(parameters: &str, words: &[Integer]) -> Option<u8> {
    let text = format!(
        "version 0.0({parameters}) -> int\nregisters r8: int\nblock 0 quiet -> r8\nr8 = lit 0"
    );
    let count = parameters.split(',').filter(|p| !p.is_empty()).count();
    let text = text.replace("r8", &format!("r{count}"));
    let refusal = begin(&image(&text), PORTAL, 0, 0, words, &UNTOUCHED).err()?;
    assert_eq!(refusal.offset, 0);
    Some(refusal.number)
}

/// Whether words that make an integer and words that make a vector match.
fn matches(parameter: &str) -> (bool, bool) {
    let parameter = format!("r0: {parameter}");
    let refused = |words: &[Integer]| match refused_by(&parameter, words) {
        None => true,
        Some(number) => {
            assert_eq!(number, 12);
            false
        }
    };
    (refused(&[-1, 5]), refused(&[1, 5]))
}

#[test]
fn questions_1_to_10_come_before_a_run_begins() {
    let found = begin(&IDENTITY[..22], PORTAL, 9, 9, &[], &[]);
    let (number, offset) = (2, 16);
    assert_eq!(found, Err(Refusal { number, offset }));
}

#[test]
fn question11_entry_that_does_not_exist() {
    for (function, version) in [(0, 1), (1, 0), (0, 4), (32, 0), (256, 0), (0, 256)] {
        let found = begin(&IDENTITY, PORTAL, function, version, &[-1, 7], &UNTOUCHED);
        let (number, offset) = (11, 0);
        assert_eq!(found, Err(Refusal { number, offset }));
    }
}

#[test]
fn question11_comes_before_12_and_12_before_13() {
    let number = |function, words: &[Integer]| {
        let refusal = begin(&IDENTITY, PORTAL, function, 0, words, &[]).unwrap_err();
        refusal.number
    };
    assert_eq!(number(1, &[]), 11);
    assert_eq!(number(0, &[]), 12);
    assert_eq!(number(0, &[-1, 7]), 13);
}

#[test]
fn question12_kinds_of_parameters() {
    assert_eq!(matches("any"), (true, true));
    assert_eq!(matches("value"), (true, true));
    assert_eq!(matches("int"), (true, false));
    assert_eq!(matches("vector"), (false, true));
    assert_eq!(matches("quiet promise"), (false, false));
    assert_eq!(matches("reflective promise"), (false, false));
    assert_eq!(matches("own vector"), (false, true));
    assert_eq!(matches("borrow vector"), (false, true));
}

#[test]
fn question12_words_are_used_up_exactly() {
    let one = "r0: value";
    assert_eq!(refused_by(one, &[]), Some(12));
    assert_eq!(refused_by(one, &[-1]), Some(12));
    assert_eq!(refused_by(one, &[-1, 7]), None);
    assert_eq!(refused_by(one, &[-1, 7, 0]), Some(12));
    assert_eq!(refused_by(one, &[2, 7]), Some(12));
    assert_eq!(refused_by(one, &[2, 7, 8]), None);
    assert_eq!(refused_by(one, &[2, 7, 8, 9]), Some(12));
    assert_eq!(refused_by(one, &[0]), None);
}

#[test]
fn question12_head_words_are_minus_1_to_16() {
    let one = "r0: value";
    let mut sixteen = vec![16];
    sixteen.extend([5; 16]);
    assert_eq!(refused_by(one, &sixteen), None);
    let mut seventeen = vec![17];
    seventeen.extend([5; 17]);
    assert_eq!(refused_by(one, &seventeen), Some(12));
    assert_eq!(refused_by(one, &[-2, 5]), Some(12));
    assert_eq!(refused_by(one, &[Integer::MIN, 5]), Some(12));
    assert_eq!(refused_by(one, &[Integer::MAX, 5]), Some(12));
}

#[test]
fn question12_head_words_are_not_their_low_32_bits() {
    let one = "r0: value";
    for high in [1 << 32, -1 << 32, 1 << 33, Integer::MIN] {
        assert_eq!(refused_by(one, &[high]), Some(12));
        assert_eq!(refused_by(one, &[high + 1, 5]), Some(12));
        let mut sixteen = vec![high + 16];
        sixteen.extend([5; 16]);
        assert_eq!(refused_by(one, &sixteen), Some(12));
    }
    let all_ones = (1 << 32) - 1;
    assert_eq!(refused_by(one, &[all_ones, 5]), Some(12));
    assert_eq!(refused_by(one, &[-(1 << 32) - 1, 5]), Some(12));
}

#[test]
fn words_and_items_are_64_bits() {
    for integer in [1 << 40, -1 << 40, Integer::MIN, Integer::MAX] {
        let state =
            begin(&IDENTITY, PORTAL, 0, 0, &[-1, integer], &UNTOUCHED).expect("a run begins");
        assert_eq!(state.frames[0].registers[0], Some(Value::Integer(integer)));
        let text = "version 0.0(r0: vector) -> vector\nblock 0 quiet -> r0";
        let words = [2, integer, -1];
        let state = begin(&image(text), PORTAL, 0, 0, &words, &UNTOUCHED).expect("a run begins");
        assert_eq!(state.vectors[0], Some(vec![integer, -1]));
    }
}

#[test]
fn question12_version_without_parameters_wants_no_word() {
    assert_eq!(refused_by("", &[]), None);
    assert_eq!(refused_by("", &[-1, 7]), Some(12));
    assert_eq!(refused_by("", &[0]), Some(12));
}

#[test]
fn question12_each_argument_matches_its_own_parameter() {
    let two = "r0: int, r1: vector";
    assert_eq!(refused_by(two, &[-1, 7, 1, 7]), None);
    assert_eq!(refused_by(two, &[1, 7, -1, 7]), Some(12));
    assert_eq!(refused_by(two, &[-1, 7]), Some(12));
}

#[test]
fn question13_buffer_of_16_places_passes_and_15_do_not() {
    let with_places = |places| begin(&IDENTITY, PORTAL, 0, 0, &[-1, 7], &vec![0; places]);
    let (number, offset) = (13, 0);
    assert_eq!(with_places(15), Err(Refusal { number, offset }));
    assert_eq!(with_places(0), Err(Refusal { number, offset }));
    assert!(with_places(16).is_ok());
    assert!(with_places(100).is_ok());
}

#[test]
fn begun_run_has_its_arguments_in_the_first_registers() {
    let text = "version 0.0(r0: vector, r1: int, r2: own vector) -> int
                  registers r3: int
                  block 0 quiet -> r1";
    let words = [2, 5, 6, -1, 7, 0];
    let state = begin(&image(text), PORTAL, 0, 0, &words, &UNTOUCHED).expect("a run begins");
    assert_eq!(state.status, Status::Running);
    assert_eq!(state.frames.len(), 1);
    let frame = &state.frames[0];
    assert_eq!((frame.function, frame.version), (0, 0));
    let arguments = [
        Some(Value::Vector(0)),
        Some(Value::Integer(7)),
        Some(Value::Vector(1)),
    ];
    assert_eq!(frame.registers[..3], arguments);
    assert_eq!(frame.registers[3..], [None; 13]);
    assert_eq!(frame.names, [None; 8]);
    assert_eq!(state.vectors[0], Some(vec![5, 6]));
    assert_eq!(state.vectors[1], Some(vec![]));
    assert_eq!(state.vectors[2], None);
    assert_eq!(state.activations.len(), 1);
    let activation = &state.activations[0];
    assert_eq!(activation.opener, Opener::Call);
    let position = (activation.frame, activation.block, activation.next);
    assert_eq!(position, (0, 0, 0));
}
