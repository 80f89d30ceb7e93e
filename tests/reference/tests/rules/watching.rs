//! "Watching a call": the registers of the topmost call, one by one.

use cases::image;
use reference::bounds::BUFFER;
use reference::watch::{Register, Shown};
use reference::{Integer, Mark, Program, State, Type};

/// 0.0 gives a promise to 1.0, which forces it; a name holds what no register does.
const PROMISED: &str = "
    version 0.0(r0: int) -> int
      registers r1: own vector, r2: quiet promise
      block 0 reflective -> r0
        r1 = vec [r0, r0]
        store x0 = r0
        r2 = prom 1
        r0 = call 1.0(r2)
      block 1 quiet -> r0
    version 1.0(r0: reflective promise) -> int
      registers r1: int
      block 0 reflective -> r1
        r1 = force r0
";

/// The program of a text, and its run from 0.0 after so many steps.
fn after(text: &str, words: &[Integer], steps: usize) -> (Program, State) {
    let program = Program::accept(&image(text)).expect("it is accepted");
    let state = State::begin(&program, 0, 0, 0, words, &[0; BUFFER]);
    let mut state = state.expect("it begins");
    for _ in 0..steps {
        state = state.step(&program).0;
    }
    (program, state)
}

/// What is shown of it.
fn shown(text: &str, words: &[Integer], steps: usize) -> Vec<Register> {
    let (program, state) = after(text, words, steps);
    state.watch(&program)
}

/// A register of a type.
fn register(declared: Type, shown: Shown) -> Register {
    Register { declared, shown }
}

#[test]
fn watching_shows_each_declared_register_in_order() {
    let rows = shown(PROMISED, &[-1, 5], 3);
    let expected = [
        register(Type::INTEGER, Shown::Integer(5)),
        register(Type::OWNED, Shown::Vector(vec![5, 5])),
        register(Type(4), Shown::Promise(Mark::QUIET)),
    ];
    assert_eq!(rows, expected);
}

#[test]
fn watching_shows_empty_registers_before_they_are_assigned() {
    let rows = shown(PROMISED, &[-1, 5], 0);
    assert_eq!(rows[1], register(Type::OWNED, Shown::Nothing));
    assert_eq!(rows.len(), 3);
}

#[test]
fn watching_shows_the_newest_call_while_a_block_of_an_older_one_is_forced() {
    let (program, state) = after(PROMISED, &[-1, 5], 5);
    let top = state.activations.last().expect("a force is live");
    assert_eq!((top.frame, state.frames.len()), (0, 2));
    let expected = [
        register(Type(5), Shown::Promise(Mark::QUIET)),
        register(Type::INTEGER, Shown::Nothing),
    ];
    assert_eq!(state.watch(&program), expected);
}

#[test]
fn watching_shows_the_mark_of_the_block_and_not_the_declared_kind() {
    let rows = shown(PROMISED, &[-1, 5], 4);
    assert_eq!(rows[0].declared, Type(5));
    assert_eq!(rows[0].shown, Shown::Promise(Mark::QUIET));
}

#[test]
fn watching_shows_nothing_with_no_live_call() {
    let (program, state) = after(PROMISED, &[-1, 5], 100);
    assert!(state.frames.is_empty());
    assert_eq!(state.watch(&program), []);
}

#[test]
fn watching_shows_the_newest_call_after_undef() {
    let text = "
        version 0.0(r0: int) -> int
          registers r1: value
          block 0 quiet -> r0
            r1 = named x3
    ";
    let rows = shown(text, &[-1, 5], 1);
    assert_eq!(rows[0], register(Type::INTEGER, Shown::Integer(5)));
    assert_eq!(rows[1], register(Type::VALUE, Shown::Nothing));
}
