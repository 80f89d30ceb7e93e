//! "Moving stored images": there, back, and questions 16 and 17 in their order.

use cases::{giving, image, IDENTITY};
use reference::{move_from, report, report_in, verdict, verdict_in, Form, Refusal, Verdict};

/// A literal of the form of 32 bits into r0.
fn narrow(number: [u8; 4]) -> Vec<u8> {
    [&[9, 0, 16, 0, 0][..], &number].concat()
}

/// A literal of the form of 64 bits into r0.
fn wide(number: [u8; 8]) -> Vec<u8> {
    [&[13, 0, 36, 0, 0][..], &number].concat()
}

/// A no.
fn no(number: u8, offset: usize) -> Result<Vec<u8>, Refusal> {
    Err(Refusal { number, offset })
}

/// 64 versions of so many literals of 32 bits each and an ARITH: 31 bytes and 9 for
/// each literal, which are 13 in the other form.
fn versions_of_literals(literals: u8) -> Vec<u8> {
    let version = |index: u8| {
        let head = [11, 0, 1, 0, index / 4, index % 4, 0, 1, 2, 1, 2];
        let (level, block) = ([5, 0, 3, 0, index % 3], [7, 0, 2, 0, 0, 0, literals + 1]);
        let literals = narrow([index, 0, 0, 128]).repeat(literals.into());
        let arith = [8, 0, 24, 0, 0, 4, 0, 0];
        [&head[..], &level, &block, &literals, &arith].concat()
    };
    (0..64).flat_map(version).collect()
}

#[test]
fn literals_alone_change_and_keep_their_sign() {
    for (short, long) in [
        ([5, 0, 0, 0], [5, 0, 0, 0, 0, 0, 0, 0]),
        (
            [0xFD, 255, 255, 255],
            [0xFD, 255, 255, 255, 255, 255, 255, 255],
        ),
        ([255, 255, 255, 127], [255, 255, 255, 127, 0, 0, 0, 0]),
        ([0, 0, 0, 128], [0, 0, 0, 128, 255, 255, 255, 255]),
        ([128, 0, 0, 0], [128, 0, 0, 0, 0, 0, 0, 0]),
    ] {
        let (old, new) = (giving(&narrow(short)), giving(&wide(long)));
        assert_eq!(move_from(Form::Narrow, &old, 36), Ok(new.clone()));
        assert_eq!(move_from(Form::Wide, &new, 32), Ok(old));
    }
}

#[test]
fn an_image_without_literals_is_the_same_in_both_forms() {
    for form in [Form::Narrow, Form::Wide] {
        let moved = move_from(form, &IDENTITY, 23);
        assert_eq!(moved, Ok(IDENTITY.to_vec()));
        assert_eq!(verdict_in(form, &IDENTITY), Verdict::Accepted(1));
    }
}

#[test]
fn question16_is_at_the_first_literal_that_does_not_fit() {
    for number in [
        [0, 0, 0, 128, 0, 0, 0, 0],
        [255, 255, 255, 127, 255, 255, 255, 255],
        [5, 0, 0, 0, 1, 0, 0, 0],
        [5, 0, 0, 0, 0, 1, 0, 0],
        [5, 0, 0, 0, 0, 0, 1, 0],
        [5, 0, 0, 0, 0, 0, 0, 1],
        [0xFD, 255, 255, 255, 255, 255, 255, 127],
        [255, 255, 255, 255, 0, 0, 0, 0],
    ] {
        let one = giving(&wide(number));
        assert_eq!(move_from(Form::Wide, &one, 100), no(16, 23));
        let mut second = giving(&[wide([7, 0, 0, 0, 0, 0, 0, 0]), wide(number)].concat());
        second[22] = 2;
        assert_eq!(move_from(Form::Wide, &second, 100), no(16, 36));
    }
}

#[test]
fn question17_asks_for_32768_bytes() {
    // 64 versions of 31 + 13 × 37 = 512 bytes each.
    let fits = versions_of_literals(37);
    let moved = move_from(Form::Narrow, &fits, 32_768).expect("it fits");
    assert_eq!(moved.len(), 32_768);
    assert_eq!(verdict(&moved), Verdict::Accepted(64));
    assert_eq!(move_from(Form::Wide, &moved, fits.len()), Ok(fits.clone()));
    // One register more of the last version makes it 32,769.
    let last = fits.len() * 63 / 64;
    let mut longer = fits;
    longer[last] += 1;
    longer[last + 7] += 1;
    longer.insert(last + 11, 2);
    assert_eq!(verdict_in(Form::Narrow, &longer), Verdict::Accepted(64));
    assert_eq!(move_from(Form::Narrow, &longer, 40_000), no(17, 0));
}

#[test]
fn question17_asks_for_the_buffer() {
    let (old, new) = (
        giving(&narrow([5, 0, 0, 0])),
        giving(&wide([5, 0, 0, 0, 0, 0, 0, 0])),
    );
    for places in 0..36 {
        assert_eq!(move_from(Form::Narrow, &old, places), no(17, 0));
    }
    assert_eq!(move_from(Form::Narrow, &old, 36), Ok(new.clone()));
    assert_eq!(move_from(Form::Narrow, &old, 37), Ok(new.clone()));
    assert_eq!(move_from(Form::Wide, &new, 31), no(17, 0));
    assert_eq!(move_from(Form::Wide, &new, 32), Ok(old));
}

#[test]
fn questions_of_its_own_form_come_first_then_16_then_17() {
    let large = wide([0, 0, 0, 0, 1, 0, 0, 0]);
    assert_eq!(move_from(Form::Wide, &giving(&large), 0), no(16, 23));
    // The second literal has a register that is not there: 7 before 16.
    let wrong = [13, 0, 36, 0, 9, 0, 0, 0, 0, 0, 0, 0, 0];
    let mut both = giving(&[&large[..], &wrong].concat());
    both[22] = 2;
    assert_eq!(move_from(Form::Wide, &both, 0), no(7, 36));
    // The result register is not assigned: 10 before 17.
    let mut unassigned = IDENTITY.to_vec();
    unassigned[6] = 0;
    for form in [Form::Narrow, Form::Wide] {
        assert_eq!(move_from(form, &unassigned, 0), no(10, 0));
        assert_eq!(move_from(form, &[], 0), no(1, 0));
        assert_eq!(move_from(form, &[0; 3], 0), no(2, 0));
    }
}

#[test]
fn a_literal_of_the_other_form_is_refused_by_3() {
    let (old, new) = (
        giving(&narrow([5, 0, 0, 0])),
        giving(&wide([5, 0, 0, 0, 0, 0, 0, 0])),
    );
    assert_eq!(move_from(Form::Narrow, &new, 100), no(3, 23));
    assert_eq!(move_from(Form::Wide, &old, 100), no(3, 23));
    assert_eq!(report_in(Form::Narrow, &new), "refused 3 at 23\n");
}

#[test]
fn reports_are_the_same_in_both_forms() {
    let new = image(cases::DUP_AND_SET);
    let old = move_from(Form::Wide, &new, new.len()).expect("its literals fit");
    assert_eq!(new.len() - old.len(), 8);
    assert_eq!(report_in(Form::Narrow, &old), report(&new));
}
