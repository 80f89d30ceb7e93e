//! Question 15: a state may go on under a new image when every version with a
//! live call has the same bytes and number in both.

use crate::support::{Run, PORTAL, UNTOUCHED};
use cases::{image, DUP_AND_SET, IDENTITY};
use reference::state::{Frame, Opener};
use reference::{change, Program, Refusal, State, Value};

/// 0.0, at 0 to 41: it calls 1.0 and then 2.0.
const MAIN: &str = "version 0.0(r0: int) -> int
                      block 0 quiet -> r0
                        r0 = call 1.0(r0)
                        r0 = call 2.0(r0)\n";
/// 1.0, at 41 to 80: twice its argument; r2 is not used.
const TWICE: &str = "version 1.0(r0: int) -> int
                       registers r1: int, r2: vector
                       block 0 quiet -> r0
                         r1 = move r0
                         r0 = add r0, r1\n";
/// 2.0, at 80 to 125: three times its argument.
const THRICE: &str = "version 2.0(r0: int) -> int
                        registers r1: int
                        block 0 quiet -> r0
                          r1 = lit 3
                          r0 = mul r0, r1\n";

/// The image of the three.
fn old() -> Vec<u8> {
    image(&[MAIN, TWICE, THRICE].concat())
}

/// The image of the three with one text in place of another.
fn with(there: &str, other: &str) -> Vec<u8> {
    let text = [MAIN, TWICE, THRICE].concat();
    assert!(text.contains(there), "{there}");
    image(&text.replace(there, other))
}

/// A run of the three with 5 after so many steps, 0 to 8: 0.0 is live, and 1.0
/// after 1 to 3, and 2.0 after 5 to 7.
fn after(steps: usize) -> State {
    let mut run = Run::begin(&[MAIN, TWICE, THRICE].concat(), &[-1, 5]);
    run.steps(steps);
    run.state
}

/// The refusal by 15 at an offset.
fn no(offset: usize) -> Result<(), Refusal> {
    let number = 15;
    Err(Refusal { number, offset })
}

#[test]
fn question15_equal_images_agree_in_every_state() {
    for steps in 0..=8 {
        assert_eq!(change(&old(), &old(), &after(steps)), Ok(()), "{steps}");
    }
}

#[test]
fn question15_only_versions_with_a_live_call_are_compared() {
    let (first, second) = (with("add", "sub"), with("lit 3", "lit 4"));
    for steps in [0, 4, 8] {
        assert_eq!(change(&old(), &first, &after(steps)), Ok(()), "{steps}");
        assert_eq!(change(&old(), &second, &after(steps)), Ok(()), "{steps}");
    }
    for steps in [1, 2, 3] {
        assert_eq!(change(&old(), &first, &after(steps)), no(41), "{steps}");
        assert_eq!(change(&old(), &second, &after(steps)), Ok(()), "{steps}");
    }
    for steps in [5, 6, 7] {
        assert_eq!(change(&old(), &first, &after(steps)), Ok(()), "{steps}");
        assert_eq!(change(&old(), &second, &after(steps)), no(80), "{steps}");
    }
}

#[test]
fn question15_versions_without_a_live_call_may_come_and_go() {
    let added = "version 3.0(r0: int) -> int\nblock 0 quiet -> r0";
    let more = image(&[MAIN, TWICE, THRICE, added].concat());
    for steps in 0..=8 {
        assert_eq!(change(&old(), &more, &after(steps)), Ok(()), "{steps}");
        assert_eq!(change(&more, &old(), &after(steps)), Ok(()), "{steps}");
    }
}

#[test]
fn question15_finds_a_version_by_its_number_wherever_it_stands() {
    // 0.1 takes 23 bytes.
    let added = "version 0.1(r0: vector) -> vector\nblock 0 quiet -> r0\n";
    let moved = image(&[MAIN, added, TWICE, THRICE].concat());
    for steps in 0..=8 {
        assert_eq!(change(&old(), &moved, &after(steps)), Ok(()), "{steps}");
        assert_eq!(change(&moved, &old(), &after(steps)), Ok(()), "{steps}");
    }
    let other = TWICE.replace("add", "sub");
    let other = image(&[MAIN, added, &other, THRICE].concat());
    assert_eq!(change(&old(), &other, &after(2)), no(41 + 23));
}

#[test]
fn question15_sees_one_byte_of_an_instruction() {
    let other = with("add", "sub");
    assert_eq!(differing(&other), [41 + 13 + 5 + 7 + 6 + 5]);
    assert_eq!(change(&old(), &other, &after(1)), no(41));
}

#[test]
fn question15_sees_one_byte_of_a_block() {
    let other = with("block 0 quiet -> r0\n                         r1 = move", {
        "block 0 quiet -> r1\n r1 = move"
    });
    assert_eq!(differing(&other), [41 + 13 + 5 + 5]);
    assert_eq!(change(&old(), &other, &after(1)), no(41));
}

#[test]
fn question15_sees_one_byte_of_a_version_record() {
    let other = with("r2: vector", "r2: value");
    assert_eq!(differing(&other), [41 + 12]);
    assert_eq!(change(&old(), &other, &after(1)), no(41));
}

#[test]
fn question15_sees_the_level() {
    let leveled = |level: &str| {
        let caller = "version 0.0(r0: int) -> int\nlevel factory\n";
        let called = format!("version 1.0(r0: int) -> int\nlevel {level}\n");
        let calls = "block 0 quiet -> r0\nr0 = call 1.0(r0)\n";
        image(&format!("{caller}{calls}{called}block 0 quiet -> r0"))
    };
    let old = leveled("staff");
    let program = Program::accept(&old).expect("an accepted image");
    let begun = State::begin(&program, 2, 0, 0, &[-1, 5], &UNTOUCHED).expect("a run begins");
    let (inside, _) = begun.clone().step(&program);
    for level in ["portal", "factory"] {
        let new = leveled(level);
        // 0.0 takes 11 + 5 + 7 + 9 bytes.
        assert_eq!(change(&old, &new, &inside), no(32), "{level}");
        assert_eq!(change(&old, &new, &begun), Ok(()), "{level}");
    }
}

#[test]
fn question15_sees_the_last_byte_of_a_version() {
    let other = with("add r0, r1", "add r0, r0");
    assert_eq!(differing(&other), [79]);
    assert_eq!(change(&old(), &other, &after(1)), no(41));
    let other = with("mul r0, r1", "mul r0, r0");
    assert_eq!(differing(&other), [124]);
    assert_eq!(change(&old(), &other, &after(5)), no(80));
}

/// The places of the bytes in which an image of the same length differs from the old one.
fn differing(other: &[u8]) -> Vec<usize> {
    let old = old();
    assert_eq!(other.len(), old.len());
    (0..old.len()).filter(|&at| old[at] != other[at]).collect()
}

#[test]
fn question15_sees_an_instruction_more_at_the_end() {
    let other = with("add r0, r1\n", "add r0, r1\n r1 = move r1\n");
    assert_eq!(change(&old(), &other, &after(1)), no(41));
    assert_eq!(change(&other, &old(), &after(1)), no(41));
}

#[test]
fn question15_names_the_first_of_two_that_differ() {
    let text = [MAIN, &TWICE.replace("add", "sub"), THRICE].concat();
    let both = image(&text.replace("lit 3", "lit 4"));
    assert_eq!(change(&old(), &both, &after(1)), no(41));
    assert_eq!(change(&old(), &both, &after(5)), no(80));
    let marked = text.replacen("quiet", "reflective", 1);
    assert_eq!(change(&old(), &image(&marked), &after(1)), no(0));
    assert_eq!(change(&old(), &image(&marked), &after(0)), no(0));
}

/// A run that entered 1.0 and has called 0.0: both are live.
fn called_from_above() -> (Vec<u8>, State) {
    let caller = "version 1.0(r0: int) -> int\nblock 0 quiet -> r0\nr0 = call 0.0(r0)";
    let old = [&IDENTITY[..], &image(caller)].concat();
    let program = Program::accept(&old).expect("an accepted image");
    let state = State::begin(&program, PORTAL, 1, 0, &[-1, 5], &UNTOUCHED).expect("a run begins");
    (old, state.step(&program).0)
}

#[test]
fn question15_a_version_that_is_missing_is_at_the_new_images_length() {
    let (old, state) = called_from_above();
    assert_eq!(change(&old, &IDENTITY, &state), no(23));
    let more = "version 0.0(r0: int) -> int\nblock 0 quiet -> r0
                version 0.1(r0: int) -> int\nblock 0 quiet -> r0";
    assert_eq!(change(&old, &image(more), &state), no(46));
}

#[test]
fn question15_what_differs_comes_before_what_is_missing() {
    let (old, state) = called_from_above();
    let mut other = IDENTITY;
    other[20] = 1;
    assert_eq!(change(&old, &other, &state), no(0));
    // The body of 1.0 stands under another number.
    let renamed = "version 0.0(r0: int) -> int\nblock 0 quiet -> r0
                   version 0.1(r0: int) -> int\nblock 0 quiet -> r0\nr0 = call 0.0(r0)";
    assert_eq!(change(&old, &image(renamed), &state), no(55));
}

#[test]
fn question15_a_version_of_a_frame_below_a_force_is_live() {
    let text = "version 0.0(r0: int) -> int
                  registers r1: quiet promise
                  block 0 quiet -> r0
                    r1 = prom 1
                    r0 = call 1.0(r1)
                  block 1 quiet -> r0
                    r0 = lit 7
                version 1.0(r0: quiet promise) -> int
                  registers r1: int
                  block 0 quiet -> r1
                    r1 = force r0";
    let mut run = Run::begin(text, &[-1, 5]);
    run.steps(3);
    assert_eq!(run.state.activations[2].opener, Opener::Force(0));
    let change_to = |other: &str| change(&image(text), &image(other), &run.state);
    assert_eq!(change_to(text), Ok(()));
    // 0.0 takes 12 + 5 + 7 + 6 + 9 + 7 + 13 bytes.
    assert_eq!(change_to(&text.replace("lit 7", "lit 8")), no(0));
    let other = text.replace("registers r1: int", "registers r1: int, r2: int");
    assert_eq!(change_to(&other), no(59));
}

#[test]
fn question15_a_live_version_in_neither_image_is_at_the_new_images_length() {
    let mut state = after(0);
    state.frames.push(Frame::new(7, 3, &[Value::Integer(1)]));
    assert_eq!(change(&old(), &old(), &state), no(125));
    assert_eq!(change(&old(), &with("add", "sub"), &state), no(125));
}

#[test]
fn question15_a_live_version_of_the_new_image_alone_differs() {
    let added = "version 3.0(r0: int) -> int\nblock 0 quiet -> r0";
    let more = image(&[MAIN, TWICE, THRICE, added].concat());
    let mut state = after(0);
    state.frames.push(Frame::new(3, 0, &[Value::Integer(1)]));
    assert_eq!(change(&old(), &more, &state), no(125));
    assert_eq!(more.len(), 125 + 23);
}

/// A quiet body with a PEEK.
const PEEKING: &str = "registers r1: quiet promise, r2: value, r3: int
                       block 0 quiet -> r0
                         r1 = prom 1
                         r2 = peek r1.x0
                       block 1 quiet -> r3";

/// A body of the portal that calls a version for the factory.
const CALLING_UP: &str = "level portal
                          block 0 quiet -> r0
                            r0 = call 0.1(r0)
                          version 0.1(r0: vector) -> vector
                            level factory
                            block 0 quiet -> r0";

#[test]
fn question15_comes_after_the_questions_to_the_new_image() {
    let text = |rest: &str| image(&format!("version 0.0(r0: vector) -> vector\n{rest}"));
    let identity = text("block 0 quiet -> r0");
    let refused: [(u8, usize, Vec<u8>); 12] = [
        (1, 0, vec![]),
        (2, 16, identity[..22].to_vec()),
        (3, 23, [&identity[..], &[4, 0, 99, 0]].concat()),
        (4, 16, text("block 0 mark 2 -> r0")),
        (5, 23, identity.repeat(2)),
        (
            6,
            0,
            image("version 0.0(r0: vector) -> borrow vector\nblock 0 quiet -> r0"),
        ),
        (7, 23, text("block 0 quiet -> r0\nr1 = move r0")),
        (
            14,
            24,
            text("registers r1: int\nblock 0 quiet -> r0\nskip 1 unless r1"),
        ),
        (8, 23, text("block 0 quiet -> r0\nr0 = len r0")),
        (18, 23, text(CALLING_UP)),
        (9, 19, text(PEEKING)),
        (10, 0, text("registers r1: vector\nblock 0 quiet -> r1")),
    ];
    for (number, offset, new) in refused {
        let refusal = change(&old(), &new, &after(0)).expect_err("a refused image");
        assert_eq!(refusal.number, number);
        assert_eq!(refusal.offset, offset, "by {number}");
    }
    // Where the new image is accepted, 15 is asked.
    assert_eq!(change(&old(), &identity, &after(0)), no(0));
    assert_eq!(change(&old(), &image(DUP_AND_SET), &after(0)), no(0));
}

#[test]
fn question15_does_not_ask_the_old_image_again() {
    // The old image is cut behind 1.0, so that 0.0 calls what is not there.
    let cut = &old()[..80];
    assert!(Program::accept(cut).is_err());
    assert_eq!(change(cut, &old(), &after(1)), Ok(()));
    assert_eq!(change(cut, &old(), &after(5)), no(80));
}
