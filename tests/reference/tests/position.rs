//! Where a state stands in its image.

use cases::image;
use reference::bounds::BUFFER;
use reference::{End, Integer, Position, Program, Said, State, Status};

/// 0.0 makes a promise and forces it, and its block calls 0.1. The instructions of block
/// 0 stand at 25 and 31, block 1 at 37, its CALL at 44, and the block of 0.1 at 69.
const FORCES: &str = "
    version 0.0(r0: int) -> int
      registers r1: quiet promise, r2: int
      block 0 quiet -> r2
        r1 = prom 1
        r2 = force r1
      block 1 quiet -> r2
        r2 = call 0.1(r0)
    version 0.1(r0: int) -> int
      block 0 quiet -> r0
";

/// A position in version 0.`version`.
fn position(version: u8, block: u8, instruction: usize, at_end: bool, offset: usize) -> Position {
    Position {
        function: 0,
        version,
        block,
        instruction,
        at_end,
        offset,
    }
}

/// A run of the portal that has begun at 0.0 of the image of a text.
fn begun(text: &str, words: &[Integer]) -> (Program, State) {
    let program = Program::accept(&image(text)).expect("an accepted image");
    let state = State::begin(&program, 0, 0, 0, words, &[0; BUFFER]).expect("a run begins");
    (program, state)
}

#[test]
fn a_run_stands_at_each_instruction_and_block_end_in_turn() {
    let (program, mut state) = begun(FORCES, &[-1, 5]);
    let stands = [
        position(0, 0, 0, false, 25),
        position(0, 0, 1, false, 31),
        position(0, 1, 0, false, 44),
        position(1, 0, 0, true, 69),
        position(0, 1, 1, true, 37),
        position(0, 0, 2, true, 18),
    ];
    for expected in stands {
        assert_eq!(state.position(&program), Some(expected));
        state = state.step(&program).0;
    }
    assert_eq!(state.status, Status::Ended(End::Integer(5)));
    assert_eq!(state.position(&program), None, "DONE");
}

#[test]
fn a_run_stands_at_what_made_it_undef() {
    let text = "version 0.0(r0: int) -> int\nblock 0 quiet -> r0\nr0 = div r0, r0";
    let (program, state) = begun(text, &[-1, 0]);
    let (after, said) = state.step(&program);
    assert_eq!(said, Said::Ended(End::Undef));
    let expected = position(0, 0, 0, false, 23);
    assert_eq!(after.position(&program), Some(expected));
}

#[test]
fn past_the_end_of_a_block_is_nowhere() {
    let (program, mut state) = begun(FORCES, &[-1, 5]);
    state.activations[0].next = 3;
    assert_eq!(state.position(&program), None);
}
