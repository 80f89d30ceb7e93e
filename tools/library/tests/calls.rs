//! Each call of the proved library that is lent no state, on images whose answers are
//! worked out by hand.

use library::{
    answer_text, bounds, bounds_into, join, mend, narrow, question_text, report, report_in,
    verdict, verdict_in, version, widen, Bound, Form, Mended, Refusal, Row, Unjoined, Verdict,
    Versions, FIR_ANSWER_TEXT_BYTES, FIR_LARGE, FIR_NONE, FIR_QUESTION_TEXT_BYTES,
    FIR_REFUSED_JOIN, FIR_ROWS, ROW_NUMBERS,
};

/// A body that makes a vector and a promise, stores, forces and gives a vector.
const TEXT: &str = "
    version 0.0(r0: int) -> own vector
      registers r1: own vector, r2: quiet promise, r3: int
      level portal
      block 0 quiet -> r1
        r1 = vec [r0, r0]
        store x2 = r0
        r2 = prom 1
        r3 = force r2
        set r1[r0] = r3
      block 1 quiet -> r3
        r3 = add r0, r0
";

/// The image of the text.
fn image() -> Vec<u8> {
    text::assemble(TEXT).expect("a text that is well formed")
}

/// A no by a question at an offset.
fn no(question: u8, offset: usize) -> Refusal {
    Refusal { question, offset }
}

#[test]
fn verdicts_are_accepted_or_refused_at_an_offset() {
    assert_eq!(verdict(&image()), Verdict::Accepted { versions: 1 });
    let refused = |question, offset| Verdict::Refused(Refusal { question, offset });
    assert_eq!(verdict(&[]), refused(1, 0));
    let image = image();
    let cut = &image[..image.len() - 1];
    assert_eq!(verdict(cut), refused(2, image.len() - 8));
}

#[test]
fn a_report_needs_room_for_all_of_it() {
    let expected = b"0.0 1 3 0 2\naccepted 1\n";
    let mut text = [7; 40];
    assert_eq!(report(&image(), &mut text), Some(expected.len()));
    assert_eq!(&text[..expected.len()], expected);
    assert_eq!(text[expected.len()..], [7; 40][expected.len()..]);
    let mut short = vec![7; expected.len() - 1];
    assert_eq!(report(&image(), &mut short), None);
    assert_eq!(short, vec![7; expected.len() - 1]);
}

#[test]
fn the_library_has_the_numbers_of_the_header() {
    let built = Versions {
        interface_number: 2,
        state_layout: 2,
    };
    assert_eq!(version(), built);
}

#[test]
fn each_question_has_words_and_no_other_number() {
    let expected = b"the entry does not exist";
    let mut text = [7; FIR_QUESTION_TEXT_BYTES];
    assert_eq!(question_text(11, &mut text), Some(expected.len()));
    assert_eq!(&text[..expected.len()], expected);
    assert_eq!(
        text[expected.len()..],
        [7; FIR_QUESTION_TEXT_BYTES][expected.len()..]
    );
    let mut short = vec![7; expected.len() - 1];
    assert_eq!(question_text(11, &mut short), None);
    assert_eq!(short, vec![7; expected.len() - 1]);
    for number in 0..=u8::MAX {
        let length = question_text(number, &mut text);
        assert_eq!(length.is_some(), number <= FIR_REFUSED_JOIN, "{number}");
    }
}

#[test]
fn each_answer_has_words_and_no_other_number() {
    let expected = b"UNDEF: an operation has no result";
    let mut text = [7; FIR_ANSWER_TEXT_BYTES];
    assert_eq!(answer_text(3, &mut text), Some(expected.len()));
    assert_eq!(&text[..expected.len()], expected);
    assert!(text[expected.len()..].iter().all(|&place| place == 7));
    let mut short = vec![7; expected.len() - 1];
    assert_eq!(answer_text(3, &mut short), None);
    assert_eq!(short, vec![7; expected.len() - 1]);
    for number in 0..=u8::MAX {
        let length = answer_text(number, &mut text);
        assert_eq!(length.is_some(), number <= 8, "{number}");
    }
}

/// Gives the literal -3 to site staff, in the form of 32 bits.
const OLD: [u8; 32] = [
    11, 0, 1, 0, 0, 0, 0, 1, 2, 1, 2, 5, 0, 3, 0, 1, 7, 0, 2, 0, 0, 0, 1, 9, 0, 16, 0, 0, 0xFD,
    255, 255, 255,
];

/// The same in the form of 64 bits.
const NEW: [u8; 36] = [
    11, 0, 1, 0, 0, 0, 0, 1, 2, 1, 2, 5, 0, 3, 0, 1, 7, 0, 2, 0, 0, 0, 1, 13, 0, 36, 0, 0, 0xFD,
    255, 255, 255, 255, 255, 255, 255,
];

#[test]
fn an_image_is_moved_there_and_back_and_places_past_it_stay() {
    let mut out = [7; 40];
    assert_eq!(widen(&OLD, &mut out), Ok(36));
    assert_eq!((&out[..36], &out[36..]), (&NEW[..], &[7; 4][..]));
    let mut back = [7; 32];
    assert_eq!(narrow(&NEW, &mut back), Ok(32));
    assert_eq!(back, OLD);
}

#[test]
fn a_refused_move_writes_nothing() {
    let mut out = [7; 40];
    assert_eq!(widen(&NEW, &mut out), Err(no(3, 23)));
    assert_eq!(narrow(&OLD, &mut out), Err(no(3, 23)));
    assert_eq!(widen(&OLD, &mut out[..35]), Err(no(17, 0)));
    assert_eq!(narrow(&NEW, &mut out[..31]), Err(no(17, 0)));
    let mut large = NEW;
    large[32] = 0;
    assert_eq!(narrow(&large, &mut out), Err(no(16, 23)));
    assert_eq!(narrow(&large, &mut out[..0]), Err(no(16, 23)));
    assert_eq!(out, [7; 40]);
}

/// A function that calls itself.
const ITSELF: &str = "
    version 0.0(r0: int) -> int
      level portal
      block 0 quiet -> r0
        r0 = call 0.0(r0)
";

#[test]
fn two_images_are_joined_into_a_buffer() {
    let itself = text::assemble(ITSELF).expect("a text that is well formed");
    let first = image();
    let length = first.len() + itself.len();
    let mut out = vec![7; length + 2];
    assert_eq!(join(&first, &itself, &mut out[..length]), Ok(length));
    assert_eq!(out[..first.len()], first);
    let mut second = itself.clone();
    second[4] = 1;
    second[28] = 1;
    assert_eq!(out[first.len()..length], second);
    assert_eq!(out[length..], [7; 2]);
    assert_eq!(verdict(&out[..length]), Verdict::Accepted { versions: 2 });
    assert_eq!(join(&itself, &itself, &mut out), Ok(2 * itself.len()));
}

#[test]
fn a_refusal_to_join_says_of_which_image_and_writes_nothing() {
    let first = image();
    let cut = &first[..first.len() - 1];
    let mut out = [7; 400];
    let at = no(2, first.len() - 8);
    assert_eq!(join(cut, &[], &mut out), Err(Unjoined::First(at)));
    assert_eq!(join(&first, cut, &mut out), Err(Unjoined::Second(at)));
    let short = &mut out[..2 * first.len() - 1];
    let no = Unjoined::Together(no(23, 0));
    assert_eq!(join(&first, &first, short), Err(no));
    assert_eq!(out, [7; 400]);
}

/// A text whose r1 is of this type, and which adds.
fn adding_to(ty: &str) -> Vec<u8> {
    let text = format!(
        "version 0.0(r0: int) -> int
           registers r1: {ty}
           level portal
           block 0 quiet -> r0
             r1 = add r0, r0
             r0 = add r1, r0"
    );
    text::assemble(&text).expect("a text that is well formed")
}

#[test]
fn a_wrong_type_is_mended_by_one_byte() {
    let (right, wrong) = (adding_to("int"), adding_to("vector"));
    assert_eq!(mend(&right), Mended::Accepted { versions: 1 });
    let refusal = no(8, 24);
    let byte = Mended::Byte {
        refusal,
        offset: 11,
        value: 2,
    };
    assert_eq!(mend(&wrong), byte);
    assert_eq!(wrong, adding_to("vector"));
    let mut twice = wrong.clone();
    twice[10] = 3;
    assert_eq!(mend(&twice), Mended::Unmended(no(8, 17)));
    let cut = &wrong[..wrong.len() - 1];
    assert_eq!(mend(cut), Mended::Refused(no(2, wrong.len() - 8)));
}

#[test]
fn each_form_has_its_verdict_and_its_report() {
    let accepted = Verdict::Accepted { versions: 1 };
    for (form, image, other) in [(Form::Narrow, &OLD[..], &NEW[..]), (Form::Wide, &NEW, &OLD)] {
        assert_eq!(verdict_in(image, form), accepted);
        assert_eq!(verdict_in(other, form), Verdict::Refused(no(3, 23)));
        let expected = b"0.0 0 1 0 0\naccepted 1\n";
        let mut text = [7; 40];
        assert_eq!(report_in(image, form, &mut text), Some(expected.len()));
        assert_eq!(&text[..expected.len()], expected);
        let mut short = vec![7; expected.len() - 1];
        assert_eq!(report_in(image, form, &mut short), None);
        assert_eq!(short, vec![7; expected.len() - 1]);
    }
}

/// 0.0 dispatches on function 1, of which 1.0 is short, 1.1 long and 1.2 above its level;
/// 2.0 calls itself, and 3.0 calls 2.0.
fn depending() -> Vec<u8> {
    let text = "version 0.0(r0: int) -> int
                  level portal
                  block 0 quiet -> r0
                    r0 = dispatch 1(r0: int) -> int quiet
                version 1.0(r0: int) -> int
                  level portal
                  block 0 quiet -> r0
                version 1.1(r0: vector) -> int
                  registers r1: int
                  level portal
                  block 0 quiet -> r1
                    r1 = len r0
                    r1 = add r1, r1
                version 1.2(r0: int) -> int
                  level staff
                  block 0 quiet -> r0
                    r0 = add r0, r0
                    r0 = add r0, r0
                    r0 = add r0, r0
                version 2.0(r0: int) -> int
                  level portal
                  block 0 quiet -> r0
                    r0 = call 2.0(r0)
                version 3.0(r0: int) -> int
                  level portal
                  block 0 quiet -> r0
                    r0 = call 2.0(r0)";
    text::assemble(text).expect("a text that is well formed")
}

/// A row.
fn row(function: u8, version: u8, bound: Bound) -> Row {
    Row {
        function,
        version,
        bound,
    }
}

#[test]
fn bounds_stand_behind_those_they_depend_on_and_none_last() {
    let rows = bounds(&depending()).expect("an accepted image");
    let expected = [
        row(1, 0, Bound::Steps(1)),
        row(1, 1, Bound::Steps(3)),
        row(0, 0, Bound::Steps(5)),
        row(1, 2, Bound::Steps(4)),
        row(2, 0, Bound::None),
        row(3, 0, Bound::None),
    ];
    assert_eq!(rows, expected);
}

#[test]
fn rows_past_the_last_stay_and_a_refusal_writes_nothing() {
    let image = depending();
    let (numbers, steps) = ([9; ROW_NUMBERS], [8; FIR_ROWS]);
    let (mut after, mut counted) = (numbers, steps);
    assert_eq!(bounds_into(&image, &mut after, &mut counted), Ok(6));
    assert_eq!(after[..6], [1, 0, 1, 1, 0, 0]);
    assert_eq!(counted[..6], [1, 3, 5, 4, FIR_NONE, FIR_NONE]);
    assert_eq!((&after[12..], &counted[6..]), (&numbers[12..], &steps[6..]));
    let (mut after, mut counted) = (numbers, steps);
    let cut = &image[..image.len() - 1];
    let refused = bounds_into(cut, &mut after, &mut counted);
    assert_eq!(refused, Err(no(2, image.len() - 9)));
    assert_eq!((after, counted), (numbers, steps));
    assert_eq!(bounds(&[]), Err(no(1, 0)));
}

#[test]
fn numbers_stand_for_bounds() {
    assert_eq!(Row::read(1, 2, 0), row(1, 2, Bound::Steps(0)));
    let most = u64::from(u32::MAX);
    assert_eq!(Row::read(1, 2, most), row(1, 2, Bound::Steps(u32::MAX)));
    assert_eq!(Row::read(1, 2, FIR_LARGE), row(1, 2, Bound::Large));
    assert_eq!(Row::read(1, 2, FIR_NONE), row(1, 2, Bound::None));
}

#[test]
#[should_panic(expected = "which fir.h does not list")]
fn a_number_that_stands_for_no_bound_is_seen() {
    let _ = Row::read(1, 2, FIR_NONE + 1);
}

#[test]
fn a_call_of_a_higher_level_is_18_at_the_call() {
    let version = |numbers, level| {
        format!("version {numbers}(r0: int) -> int\nlevel {level}\nblock 0 quiet -> r0\n")
    };
    let calling = |own, called| {
        let text = version("0.0", own) + "r0 = call 0.1(r0)\n" + &version("0.1", called);
        verdict(&text::assemble(&text).expect("a text that is well formed"))
    };
    let accepted = Verdict::Accepted { versions: 2 };
    assert_eq!(calling("staff", "portal"), accepted);
    assert_eq!(calling("staff", "staff"), accepted);
    let refused = Verdict::Refused(no(18, 11 + 5 + 7));
    assert_eq!(calling("staff", "factory"), refused);
    assert_eq!(calling("portal", "staff"), refused);
}
