//! "Smallest mend": which bytes are tried, in which order, and which refusals are mended.

use cases::{exact, IDENTITY};
use reference::mends::register_types;
use reference::{mend, verdict, Mended, Refusal, Verdict};

/// The image of a text.
fn image(text: &str) -> Vec<u8> {
    exact(text)
}

/// A mend beside a refusal.
fn byte(number: u8, at: usize, offset: usize, value: u8) -> Mended {
    Mended::Byte {
        refusal: Refusal { number, offset: at },
        offset,
        value,
    }
}

/// No mend beside a refusal.
fn none(number: u8, offset: usize) -> Mended {
    Mended::Unmended(Refusal { number, offset })
}

#[test]
fn an_accepted_image_is_named_accepted() {
    assert_eq!(mend(&IDENTITY), Mended::Accepted(1));
}

#[test]
fn other_refusals_are_returned_as_they_are() {
    for text in [
        "",
        "bytes 01",
        "version 0.0(r0: int) -> int\nlevel portal\nblock 0 quiet -> r1",
        "version 0.0(r0: int) -> int\nlevel portal\nblock 0 quiet -> r0\nskip 1 unless r0",
        "version 0.0(r0: int) -> int\nlevel portal\nblock 0 quiet -> r0\nr0 = call 0.1(r0)
         version 0.1(r0: int) -> int\nlevel staff\nblock 0 quiet -> r0",
    ] {
        let image = image(text);
        let Verdict::Refused(refusal) = verdict(&image) else {
            panic!("accepted: {text}");
        };
        assert!([1, 2, 7, 14, 18].contains(&refusal.number), "{refusal:?}");
        assert_eq!(mend(&image), Mended::Refused(refusal));
    }
}

#[test]
fn register_types_are_those_of_versions_parameters_among_them() {
    let image = image(
        "version 0.0(r0: int) -> int
           registers r1: int
           level portal
           block 0 quiet -> r0
             r1 = dispatch 0(r0: int, r1: int) -> int quiet
         version 0.1(r0: int) -> int
           level portal
           block 0 quiet -> r0",
    );
    let second = 12 + 5 + 7 + 13;
    assert_eq!(register_types(&image), [10, 11, second + 10]);
}

#[test]
fn the_lowest_offset_comes_before_the_lowest_value() {
    // r0: value and r1: any would do as well as what is named, r0: int.
    let image = image(
        "version 0.0(r0: vector) -> int
           registers r1: int, r2: int
           level portal
           block 0 quiet -> r2
             r1 = move r0
             r2 = lit 1",
    );
    assert_eq!(mend(&image), byte(8, 25, 10, 2));
    let mut changed = image.clone();
    changed[11] = 0;
    assert_eq!(verdict(&changed), Verdict::Accepted(1));
}

#[test]
fn the_lowest_value_is_named_that_mends() {
    // r1: any, value, int and quiet promise fit nothing else than what LIT gives.
    let text = |ty: &str| {
        image(&format!(
            "version 0.0(r0: int) -> int
               registers r1: {ty}
               level portal
               block 0 quiet -> r0
                 r1 = lit 1"
        ))
    };
    assert_eq!(mend(&text("vector")), byte(8, 24, 11, 0));
    assert_eq!(mend(&text("0x12")), byte(6, 0, 11, 0));
    for accepted in ["any", "value", "int"] {
        assert_eq!(mend(&text(accepted)), Mended::Accepted(1));
    }
}

#[test]
fn return_types_and_those_of_a_dispatch_are_not_changed() {
    let returned = "version 0.0(r0: int) -> 0x12\nlevel portal\nblock 0 quiet -> r0";
    assert_eq!(mend(&image(returned)), none(6, 0));
    let searched = "version 0.0(r0: int) -> int\nlevel portal\nblock 0 quiet -> r0
                    r0 = dispatch 0(r0: 0x12) -> int quiet";
    assert_eq!(mend(&image(searched)), none(6, 23));
}

#[test]
fn a_parameter_of_a_called_version_mends_its_caller() {
    let image = image(
        "version 0.0(r0: own vector) -> int
           registers r1: int
           level portal
           block 0 quiet -> r1
             r1 = call 0.1(r0)
             r1 = len r0
         version 0.1(r0: own vector) -> int
           registers r1: int
           level portal
           block 0 quiet -> r1
             r1 = len r0",
    );
    assert_eq!(mend(&image), byte(10, 0, 49, 0x23));
}

#[test]
fn a_forced_register_mends_a_quiet_block() {
    let text = |second: &str| {
        image(&format!(
            "version 0.0(r0: reflective promise, r1: {second}) -> int
               registers r2: int
               level portal
               block 0 quiet -> r2
                 r2 = force r0
                 r2 = force r1"
        ))
    };
    assert_eq!(mend(&text("quiet promise")), byte(9, 18, 10, 4));
    assert_eq!(mend(&text("reflective promise")), none(9, 18));
}

#[test]
fn where_two_types_are_wrong_none_is_named() {
    let image = image(
        "version 0.0(r0: vector, r1: vector) -> int
           level portal
           block 0 quiet -> r0
             r0 = add r1, r1",
    );
    assert_eq!(mend(&image), none(8, 17));
}
