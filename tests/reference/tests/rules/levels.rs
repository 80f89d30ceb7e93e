//! "Levels of staff": LEVEL records, and question 18.

use crate::support::{accepts, refuses, refuses_image};
use cases::{exact, image};
use reference::{move_from, Form, Program};

/// An identity without a level: its BLOCK stands at 11.
const WITHOUT: &str = "version 0.0(r0: int) -> int\nblock 0 quiet -> r0\n";

/// An identity of a level, written so: 23 bytes, its BLOCK at 16.
fn identity(numbers: &str, level: &str) -> String {
    format!("version {numbers}(r0: int) -> int\nlevel {level}\nblock 0 quiet -> r0\n")
}

#[test]
fn question4_levels_are_0_to_2() {
    for level in ["portal", "staff", "factory"] {
        accepts(&identity("0.0", level));
    }
    for level in [3, 4, 16, 128, 255] {
        refuses(&identity("0.0", &level.to_string()), 4, 11);
        let second = identity("0.1", &level.to_string());
        refuses(&(identity("0.0", "staff") + &second), 4, 23 + 11);
    }
}

#[test]
fn question3_a_level_of_another_length() {
    for length in (4..12).filter(|&length| length != 5) {
        let mut level = vec![0; length];
        level[..4].copy_from_slice(&[length as u8, 0, 3, 0]);
        let mut image = exact(WITHOUT);
        image.splice(11..11, level);
        refuses_image(&image, 3, 11);
    }
}

#[test]
fn question4_a_missing_level_is_at_the_record_in_its_place() {
    refuses_image(&exact(WITHOUT), 4, 11);
    // The second version's, and where a version stands in its place.
    let second = identity("0.0", "portal") + &WITHOUT.replace("0.0", "0.1");
    refuses_image(&exact(&second), 4, 23 + 11);
    let version = "version 0.0(r0: int) -> int blocks=1\n".to_string() + &identity("0.1", "staff");
    refuses_image(&exact(&version), 4, 11);
    let instruction = "version 0.0(r0: int) -> int blocks=1\nr0 = lit 0";
    refuses_image(&exact(instruction), 4, 11);
}

#[test]
fn question4_a_missing_level_is_at_the_length_at_the_end_of_the_image_alone() {
    refuses_image(&exact("version 0.0(r0: int) -> int blocks=1"), 4, 11);
    let second = identity("0.0", "portal") + "version 0.1(r0: int) -> int blocks=1";
    refuses_image(&exact(&second), 4, 23 + 11);
}

#[test]
fn question4_a_level_stands_once_and_right_after_its_version() {
    let whole = "version 0.0(r0: int) -> int
                   level staff
                   block 0 quiet -> r0
                     r0 = move r0
                   block 1 quiet -> r0";
    // Before the version, twice, behind the block, within it, and at the end.
    for (place, offset) in [(0, 0), (2, 16), (3, 23), (4, 29), (5, 36)] {
        let mut lines: Vec<&str> = whole.lines().collect();
        lines.insert(place, "level staff");
        refuses(&lines.join("\n"), 4, offset);
    }
    refuses("level portal", 4, 0);
}

#[test]
fn question4_of_two_faults_the_first_record_counts() {
    // The op of ARITH stands behind the unknown level, and before the second one.
    let body = "block 0 quiet -> r0\nr0 = arith 9 r0, r0\n";
    let text = |level: &str| format!("version 0.0(r0: int) -> int\nlevel {level}\n{body}");
    refuses(&text("3"), 4, 11);
    refuses(&(text("2") + "level portal"), 4, 23);
}

#[test]
fn question5_is_asked_after_levels() {
    refuses(&identity("1.0", "9"), 4, 11);
    refuses(&identity("1.0", "staff"), 5, 0);
}

/// 0.0 of a level calls 0.1 of a level, at 16 + 7.
fn calling(own: &str, called: &str) -> String {
    let caller = identity("0.0", own) + "r0 = call 0.1(r0)\n";
    caller + &identity("0.1", called)
}

#[test]
fn question18_a_call_goes_across_or_down() {
    let levels = ["portal", "staff", "factory"];
    for (own, caller) in levels.iter().enumerate() {
        for (named, called) in levels.iter().enumerate() {
            let text = calling(caller, called);
            if named <= own {
                accepts(&text);
            } else {
                refuses(&text, 18, 16 + 7);
            }
        }
    }
}

#[test]
fn question18_is_asked_in_promise_blocks_and_skipped_parts() {
    let text = |instructions: &str| {
        let head = "version 0.0(r0: int) -> int\nregisters r1: quiet promise\nlevel staff\n";
        let body = format!("block 0 quiet -> r0\n{instructions}\n");
        format!("{head}{body}{}", identity("0.1", "factory"))
    };
    // VERSION 12 bytes, LEVEL 5, BLOCK 7, PROM 6, BLOCK 7.
    let promise = "r1 = prom 1\nblock 1 quiet -> r0\nr0 = call 0.1(r0)";
    refuses(&text(promise), 18, 12 + 5 + 7 + 6 + 7);
    // A SKIP has 6 bytes.
    refuses(
        &text("skip 1 unless r0\nr0 = call 0.1(r0)"),
        18,
        12 + 5 + 7 + 6,
    );
}

#[test]
fn question18_is_at_the_first_call_that_goes_up() {
    let caller = "version 0.0(r0: int) -> int
                    level portal
                    block 0 quiet -> r0
                      r0 = call 0.0(r0)
                      r0 = call 0.1(r0)
                      r0 = call 0.2(r0)\n";
    let called = identity("0.1", "staff") + &identity("0.2", "factory");
    refuses(&(caller.to_string() + &called), 18, 11 + 5 + 7 + 9);
}

#[test]
fn question18_asks_no_dispatch() {
    let dispatch = "r0 = dispatch 0(r0: int) -> int quiet\n";
    let text = identity("0.0", "portal") + dispatch + &identity("0.1", "factory");
    accepts(&text);
}

#[test]
fn question18_is_put_after_8_and_before_9_and_10() {
    // 8 at the second version's BLOCK: its result is no integer.
    let called = "version 0.1(r0: vector) -> int\nlevel factory\nblock 0 quiet -> r0\n";
    let caller = "version 0.0(r0: vector, r1: int) -> int
                    level portal
                    block 0 quiet -> r1
                      r1 = call 0.1(r0)\n";
    refuses(&format!("{caller}{called}"), 8, (12 + 5 + 7 + 9) + (11 + 5));
    // 9 at the first BLOCK, which is quiet, and 10 at the first VERSION.
    let up = calling("portal", "staff");
    let reflective = up
        .replacen("quiet", "reflective", 2)
        .replacen("reflective", "quiet", 1);
    refuses(&reflective, 18, 16 + 7);
    let across = reflective.replace("portal", "staff");
    refuses(&across, 9, 16);
    let unread = up.replace("0.0(r0: int) -> int", "0.0() -> int\nregisters r0: int");
    refuses(&unread, 18, 16 + 7);
    refuses(&unread.replace("portal", "staff"), 10, 0);
}

#[test]
fn a_level_is_moved_with_its_version() {
    let head = "version 0.0() -> int\nregisters r0: int\nlevel staff\n";
    let new = image(&format!("{head}block 0 quiet -> r0\nr0 = lit 7"));
    let old = move_from(Form::Wide, &new, 100).expect("it is moved");
    assert_eq!(old.len(), new.len() - 4);
    assert_eq!(old[..16], new[..16]);
    assert_eq!(move_from(Form::Narrow, &old, 100), Ok(new.clone()));
    let level = |form, image: &[u8]| Program::accept_in(form, image).map(|p| p.versions[0].level);
    assert_eq!(level(Form::Narrow, &old), level(Form::Wide, &new));
    // A version without a level is 4 in both forms.
    for form in [Form::Narrow, Form::Wide] {
        let found = move_from(form, &exact(WITHOUT), 100).map_err(|no| (no.number, no.offset));
        assert_eq!(found, Err((4, 11)));
    }
}
