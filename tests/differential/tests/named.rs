//! The cases that the paper names, with verdicts and texts worked out by hand.

use cases::{
    assigned_on_one_way, calling_with, emptied_on_one_way, emptying_after, exact, filling, giving,
    image, resulting, returning, skipping_inside, CALLS_ITSELF, CALL_INTO_ITSELF, DIVISION,
    DUP_AND_SET, IDENTITY, SET_ON_SHARED, SKIPS_NONE, SKIPS_ONE, USE_INTO_ITSELF,
};
use differential::comparison::{assert_report, assert_verdict};
use differential::edges::{identities, EVERY_INSTRUCTION};
use reference::{report, verdict, Refusal, Verdict};

/// Asserts that both checkers refuse an image so, and print so.
#[track_caller]
fn refuses(image: &[u8], number: u8, offset: usize) {
    let expected = Verdict::Refused(Refusal { number, offset });
    says(image, expected, &format!("refused {number} at {offset}\n"));
}

/// Asserts that both checkers accept an image, and print these lines and how many they are.
#[track_caller]
fn accepts(image: &[u8], lines: &[&str]) {
    let versions = lines.len();
    let text = format!("{}\naccepted {versions}\n", lines.join("\n"));
    says(image, Verdict::Accepted(versions), &text);
}

/// Asserts what both checkers say of an image, and print.
#[track_caller]
fn says(image: &[u8], expected: Verdict, text: &str) {
    assert_eq!(verdict(image), expected, "by the reference");
    assert_eq!(report(image), text, "by the reference");
    assert_verdict(image, expected, "the case");
    assert_report(image, text, "the case");
}

/// The identity with another byte at a place.
fn identity_with(byte: u8, place: usize) -> [u8; 23] {
    let mut image = IDENTITY;
    image[place] = byte;
    image
}

#[test]
fn image_i_is_accepted() {
    accepts(&IDENTITY, &["0.0 1 0 0 0"]);
}

#[test]
fn p1_empty_image_is_1_at_0() {
    refuses(&[], 1, 0);
}

#[test]
fn p4_identity_without_its_last_byte_is_2_at_16() {
    refuses(&IDENTITY[..22], 2, 16);
}

#[test]
fn p5_identity_with_type_owned_integer_is_6_at_0() {
    refuses(&identity_with(0x12, 10), 6, 0);
    refuses(&identity_with(0x12, 8), 6, 0);
}

#[test]
fn p6_result_register_that_nothing_assigned_is_10_at_0() {
    refuses(&image(&resulting("r1")), 10, 0);
    accepts(&image(&resulting("r0")), &["0.0 1 0 0 0"]);
}

#[test]
fn p7_dup_set_and_owned_return_is_accepted() {
    // Reads r0; assigns r1, r2, r3.
    accepts(&image(DUP_AND_SET), &["0.0 1 3 0 0"]);
}

#[test]
fn p9_set_on_the_shared_vector_is_8_at_the_set() {
    refuses(&image(SET_ON_SHARED), 8, 14 + 5 + 7 + 6 + 13 + 13);
}

#[test]
fn p10_division_is_accepted() {
    accepts(&image(DIVISION), &["0.0 2 1 0 0"]);
}

#[test]
fn p11_a_body_that_calls_itself_is_accepted() {
    accepts(&image(CALLS_ITSELF), &["0.0 1 1 0 0"]);
}

#[test]
fn mistake_one_owned_register_given_as_owned_and_borrowed_in_one_call_is_8() {
    refuses(&image(&calling_with("r0, r0")), 8, 13 + 5 + 7);
    // 0.0 reads r0, r1, empties r1, assigns r2; 1.0 reads r0, assigns r2.
    let image = image(&calling_with("r0, r1"));
    accepts(&image, &["0.0 2 1 1 0", "1.0 1 1 0 0"]);
}

#[test]
fn mistake_one_owned_register_given_as_owned_and_borrowed_in_one_dispatch_is_8() {
    let with_arguments = |arguments: &str| {
        image(&format!(
            "version 0.0(r0: own vector, r1: own vector, r2: int) -> int
               block 0 quiet -> r2
                 r2 = dispatch 0({arguments}) -> int quiet"
        ))
    };
    for arguments in [
        "r0: own vector, r0: borrow vector",
        "r0: borrow vector, r0: own vector",
        "r0: own vector, r0: own vector",
    ] {
        refuses(&with_arguments(arguments), 8, 13 + 5 + 7);
    }
    accepts(
        &with_arguments("r0: own vector, r1: borrow vector"),
        &["0.0 2 1 1 0"],
    );
    accepts(
        &with_arguments("r0: borrow vector, r0: borrow vector"),
        &["0.0 1 1 0 0"],
    );
}

/// An identity before a version whose block 1 alone assigns r1, or not alone.
fn read_after_force(first: &str) -> Vec<u8> {
    image(&format!(
        "version 0.0(r0: int) -> int
           block 0 quiet -> r0
         version 0.1(r0: int) -> int
           registers r1: int, r2: quiet promise
           block 0 quiet -> r1
             {first}
             r2 = prom 1
             r0 = force r2
           block 1 quiet -> r1
             r1 = lit 5"
    ))
}

#[test]
fn mistake_reading_a_register_that_only_a_forced_block_assigned_is_10() {
    refuses(&read_after_force(""), 10, 23);
    // Reads nothing; assigns r1, r2, r0; the promise captures r1.
    accepts(
        &read_after_force("r1 = lit 4"),
        &["0.0 1 0 0 0", "0.1 0 3 0 1"],
    );
}

#[test]
fn mistake_emptying_a_register_after_a_promise_captured_it_is_10() {
    for emptying in [
        "use r0",
        "call 0.0(r0, r1)",
        "dispatch 0(r0: own vector) -> own vector quiet",
    ] {
        refuses(&image(&emptying_after("r0", emptying)), 10, 0);
    }
    // Reads r0, r1; assigns r2, r3; empties r0; the promise captures r1, r4.
    let image = image(&emptying_after("r1", "use r0"));
    accepts(&image, &["0.0 2 2 1 2"]);
}

#[test]
fn mistake_returning_kind_0_is_6() {
    for kind in ["any", "quiet promise", "reflective promise"] {
        refuses(&image(&returning(kind)), 6, 0);
    }
    accepts(&image(&returning("value")), &["0.0 1 0 0 0"]);
}

#[test]
fn mistake_returning_kind_0_from_a_dispatch_is_6() {
    let returning = |kind: &str| {
        image(&format!(
            "version 0.0(r0: any) -> int
               registers r1: int
               block 0 quiet -> r1
                 r1 = lit 0
                 r0 = dispatch 0(r0: any) -> {kind} quiet"
        ))
    };
    refuses(&returning("any"), 6, 12 + 5 + 7 + 13);
    accepts(&returning("value"), &["0.0 1 2 0 0"]);
}

#[test]
fn every_instruction_is_accepted_with_its_sets_counted() {
    // 0.0 reads r0, r1, r2; assigns r2 to r9; empties r0, r3; block 1 captures
    // r1, r5; block 2 captures r1, r2, r6 of its own and r1, r5 through block 3.
    accepts(
        &image(EVERY_INSTRUCTION),
        &["0.0 3 8 2 4", "0.1 2 1 0 0", "1.0 1 0 0 0"],
    );
}

#[test]
fn the_65th_version_is_4_at_its_place() {
    let lines = |index| format!("{}.{} 1 0 0 0", index / 4, index % 4);
    let lines: Vec<String> = (0..64).map(lines).collect();
    let lines: Vec<&str> = lines.iter().map(String::as_str).collect();
    accepts(&identities(64), &lines);
    refuses(&identities(65), 4, 64 * 23);
}

#[test]
fn a_skip_reads_its_register_and_the_rest_counts_what_both_ways_assign() {
    // SKIPS_ONE reads r0 and assigns r1 on both ways, the other reads r0 alone.
    accepts(&image(SKIPS_ONE), &["0.0 1 1 0 0"]);
    accepts(&image(SKIPS_NONE), &["0.0 1 0 0 0"]);
}

#[test]
fn a_part_may_end_where_the_part_around_it_and_the_block_end() {
    // Reads r0, r1; assigns r2.
    for n in [0, 1] {
        accepts(&image(&skipping_inside(n)), &["0.0 2 1 0 0"]);
    }
}

#[test]
fn a_skip_past_the_part_around_it_is_14_at_the_inner_skip() {
    // VERSION 13 bytes, LEVEL 5, BLOCK 7, LIT 13, SKIP 6, LIT 13.
    refuses(&image(&skipping_inside(2)), 14, 13 + 5 + 7 + 13 + 6 + 13);
    // The outer part is shorter by one, so that the inner one ends behind it.
    let shorter = skipping_inside(1).replace("skip 3", "skip 2");
    refuses(&image(&shorter), 14, 13 + 5 + 7 + 13 + 6 + 13);
}

#[test]
fn a_skip_of_255_instructions_is_14_at_it() {
    let longest = SKIPS_ONE.replace("skip 1", "skip 255");
    refuses(&image(&longest), 14, 12 + 5 + 7 + 13);
}

#[test]
fn a_register_that_one_way_alone_assigns_is_10_where_it_is_read() {
    refuses(&image(&assigned_on_one_way("")), 10, 0);
    let image = image(&assigned_on_one_way("r1 = lit 4"));
    accepts(&image, &["0.0 1 1 0 0"]);
}

#[test]
fn a_register_that_one_way_alone_empties_is_10_where_it_is_read() {
    refuses(&image(&emptied_on_one_way("r0")), 10, 0);
    // Reads r0, r1, r2; assigns r1, for r3 is assigned on one way; empties r0.
    accepts(&image(&emptied_on_one_way("r2")), &["0.0 3 1 1 0"]);
}

#[test]
fn an_instruction_may_fill_the_register_that_it_empties() {
    // Reads r0 and assigns it; nothing is left empty.
    accepts(&image(USE_INTO_ITSELF), &["0.0 1 1 0 0"]);
    accepts(&image(CALL_INTO_ITSELF), &["0.0 1 1 0 0", "1.0 1 0 0 0"]);
}

#[test]
fn the_report_counts_as_emptied_what_is_still_empty_at_the_end() {
    // Each reads r0 and r1; the promise captures r0 and r1.
    let emptied = "r0 = use r0\nr3 = prom 1";
    accepts(&image(&filling(emptied)), &["0.0 2 2 0 2"]);
    let chain = "r2 = use r0\nr0 = use r2\nr3 = prom 1";
    accepts(&image(&filling(chain)), &["0.0 2 3 1 2"]);
}

#[test]
fn a_register_may_be_captured_after_it_is_filled_again_and_not_before() {
    let after = "r2 = use r0\nr0 = vec []\nr3 = prom 1";
    accepts(&image(&filling(after)), &["0.0 2 3 0 2"]);
    let before = "r2 = use r0\nr3 = prom 1\nr0 = vec []";
    refuses(&image(&filling(before)), 10, 0);
}

#[test]
fn a_captured_register_is_not_emptied_even_by_what_fills_it_again() {
    refuses(&image(&filling("r3 = prom 1\nr0 = use r0")), 10, 0);
    accepts(
        &image(&filling("r3 = prom 1\nr0 = vec []")),
        &["0.0 2 2 0 2"],
    );
}

#[test]
fn a_register_that_is_filled_again_on_one_way_alone_is_10_where_it_is_read() {
    let part = "r2 = use r0\nskip 1 unless r1\nr0 = vec []";
    refuses(&image(&filling(&format!("{part}\nr3 = prom 1"))), 10, 0);
    let both = format!("{part}\nr0 = vec []\nr3 = prom 1");
    accepts(&image(&filling(&both)), &["0.0 2 3 0 2"]);
}

#[test]
fn a_register_that_is_read_between_its_emptying_and_its_filling_is_10() {
    let between = "r3 = prom 1\nr2 = vec [r1]\nr0 = use r2\nr1 = len r2\nr2 = vec []";
    refuses(&image(&filling(between)), 10, 0);
    let behind = "r3 = prom 1\nr2 = vec [r1]\nr0 = use r2\nr2 = vec []\nr1 = len r2";
    // Reads r0 and r1; assigns r3, r2, r0, r1.
    accepts(&image(&filling(behind)), &["0.0 2 4 0 2"]);
}

#[test]
fn a_literal_is_of_kind_36_with_a_number_of_8_bytes() {
    let literal = [13, 0, 36, 0, 0, 5, 0, 0, 0, 0, 0, 0, 0];
    accepts(&giving(&literal), &["0.0 0 1 0 0"]);
    for bytes in (0..=12).filter(|&bytes| bytes != 8) {
        let mut literal = vec![0; 5 + bytes];
        literal[..4].copy_from_slice(&[5 + bytes as u8, 0, 36, 0]);
        refuses(&giving(&literal), 3, 23);
    }
}

#[test]
fn a_literal_of_kind_16_is_3_whatever_its_length() {
    refuses(&giving(&[9, 0, 16, 0, 0, 5, 0, 0, 0]), 3, 23);
    refuses(&giving(&[13, 0, 16, 0, 0, 5, 0, 0, 0, 0, 0, 0, 0]), 3, 23);
}

/// An identity of a level, 23 bytes; its LEVEL stands at 11, its BLOCK at 16.
fn identity_of(numbers: &str, level: &str) -> String {
    format!("version {numbers}(r0: int) -> int\nlevel {level}\nblock 0 quiet -> r0\n")
}

#[test]
fn an_unknown_level_is_4_at_its_record() {
    for level in ["portal", "staff", "factory"] {
        accepts(&image(&identity_of("0.0", level)), &["0.0 1 0 0 0"]);
    }
    for level in 3..=255 {
        refuses(&identity_with(level, 15), 4, 11);
    }
}

#[test]
fn a_level_of_another_length_is_3() {
    for length in (4..9).filter(|&length| length != 5) {
        let mut level = vec![0; length];
        level[..4].copy_from_slice(&[length as u8, 0, 3, 0]);
        let whole = [&IDENTITY[..11], &level, &IDENTITY[16..]].concat();
        refuses(&whole, 3, 11);
    }
}

#[test]
fn a_missing_level_is_4_at_the_record_in_its_place_or_at_the_end() {
    let without = [&IDENTITY[..11], &IDENTITY[16..]].concat();
    refuses(&without, 4, 11);
    refuses(&[&IDENTITY[..], &without].concat(), 4, 23 + 11);
    refuses(&[&IDENTITY[..11], &IDENTITY].concat(), 4, 11);
    refuses(&IDENTITY[..11], 4, 11);
    refuses(&[&IDENTITY[..], &IDENTITY[..11]].concat(), 4, 23 + 11);
}

#[test]
fn a_level_twice_or_elsewhere_is_4_at_it() {
    let level = [5, 0, 3, 0, 0];
    for (place, offset) in [(0, 0), (11, 16), (16, 16), (23, 23)] {
        let mut image = IDENTITY.to_vec();
        image.splice(place..place, level);
        refuses(&image, 4, offset);
    }
    // In place of the only instruction, and behind it.
    let body = "version 0.0(r0: int) -> int\nlevel staff\nblock 0 quiet -> r0 count=1\n";
    refuses(&exact(&format!("{body}level staff\nr0 = lit 0")), 4, 23);
    refuses(&exact(&format!("{body}r0 = lit 0\nlevel staff")), 4, 36);
}

#[test]
fn a_call_up_is_18_at_the_call_and_others_are_accepted() {
    let levels = ["portal", "staff", "factory"];
    for (own, caller) in levels.iter().enumerate() {
        for (named, called) in levels.iter().enumerate() {
            let call = identity_of("0.0", caller) + "r0 = call 0.1(r0)\n";
            let image = image(&(call + &identity_of("0.1", called)));
            if named <= own {
                accepts(&image, &["0.0 1 1 0 0", "0.1 1 0 0 0"]);
            } else {
                refuses(&image, 18, 23);
            }
        }
    }
}

#[test]
fn a_call_up_is_18_in_a_promise_block_and_in_a_skipped_part() {
    let text = |body: &str| {
        let head = "version 0.0(r0: int) -> int\nregisters r1: quiet promise\nlevel portal\n";
        let called = identity_of("0.1", "factory");
        image(&format!("{head}block 0 quiet -> r0\n{body}\n{called}"))
    };
    let promise = "r1 = prom 1\nblock 1 quiet -> r0\nr0 = call 0.1(r0)";
    refuses(&text(promise), 18, 12 + 5 + 7 + 6 + 7);
    let skipped = "skip 1 unless r0\nr0 = call 0.1(r0)";
    refuses(&text(skipped), 18, 12 + 5 + 7 + 6);
    // A DISPATCH of the same function is asked nothing.
    let dispatch = "r0 = dispatch 0(r0: int) -> int quiet";
    let body = identity_of("0.0", "portal") + dispatch + "\n" + &identity_of("0.1", "factory");
    accepts(&image(&body), &["0.0 1 1 0 0", "0.1 1 0 0 0"]);
}

#[test]
fn eighteen_comes_after_8_and_before_9_and_10() {
    let called = |rest: &str| format!("version 0.1(r0: int) -> int\nlevel staff\n{rest}");
    let caller = identity_of("0.0", "portal") + "r0 = call 0.1(r0)\n";
    let vector = called("block 0 quiet -> r0\n").replace("-> int", "-> vector");
    refuses(&image(&format!("{caller}{vector}")), 8, 23);
    let reflective = called("block 0 reflective -> r0\n");
    refuses(&image(&format!("{caller}{reflective}")), 18, 23);
    let across = caller.replace("portal", "staff");
    refuses(&image(&format!("{across}{reflective}")), 9, 16);
    let unread =
        "version 0.1(r0: int) -> int\nregisters r1: int\nlevel staff\nblock 0 quiet -> r1\n";
    refuses(&image(&format!("{caller}{unread}")), 18, 23);
    refuses(&image(&format!("{across}{unread}")), 10, 32);
}
