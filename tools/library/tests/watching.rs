//! The registers of the topmost call.

use library::{
    Entry, Program, Register, Run, FACTORY, FIR_IS_INTEGER, FIR_IS_PROMISE, FIR_IS_VECTOR,
    FIR_NOTHING, FIR_REFUSED_ROWS,
};
use text::assemble;

/// An integer is taken to a helper, with a vector, a promise and a register that stays empty.
const SCRIPT: &str = "
    version 0.0(r0: int) -> int
      registers r1: vector, r2: quiet promise, r3: int
      level portal
      block 0 quiet -> r0
        r1 = vec [r0, r0]
        r2 = prom 1
        r0 = call 1.0(r1)
      block 1 quiet -> r0
    version 1.0(r0: vector) -> int
      registers r1: int
      level portal
      block 0 quiet -> r1
        r1 = len r0
";

/// A run of the script, begun.
fn begun(program: &Program) -> Run<'_> {
    let entry = Entry {
        function: 0,
        version: 0,
    };
    let run = Run::begin(program, FACTORY, entry, &[-1, 7], &[0; 16]);
    run.expect("it begins")
}

/// The image of the script, loaded.
fn loaded() -> Program {
    let image = assemble(SCRIPT).expect("it is a text");
    Program::load(image).expect("it is accepted")
}

#[test]
fn each_register_of_the_topmost_call_is_shown_in_order() {
    let program = loaded();
    let mut run = begun(&program);
    run.step();
    run.step();
    let rows = run.topmost();
    let holds: Vec<u8> = rows.iter().map(|row| row.holds).collect();
    let expected = [FIR_IS_INTEGER, FIR_IS_VECTOR, FIR_IS_PROMISE, FIR_NOTHING];
    assert_eq!(holds, expected);
    assert_eq!((rows[0].integer, rows[0].declared), (7, 2));
    assert_eq!(rows[1].vector(), [7, 7]);
    assert_eq!(rows[1].items[2..], [0; 14]);
    assert_eq!((rows[2].mark, rows[2].declared), (0, 4));
    run.step();
    let called = run.topmost();
    assert_eq!(called.len(), 2, "the call that was opened is the topmost");
    assert_eq!(called[0].vector(), [7, 7]);
}

#[test]
fn a_list_that_is_too_short_stays_as_it_was() {
    let program = loaded();
    let run = begun(&program);
    let noise = Register {
        integer: -1,
        mark: 9,
        ..Register::BLANK
    };
    let mut rows = [noise; 3];
    let refused = run.watch(&mut rows).expect_err("it is too short");
    assert_eq!((refused.question, refused.offset), (FIR_REFUSED_ROWS, 0));
    assert_eq!(rows, [noise; 3]);
    let mut rows = [noise; 6];
    assert_eq!(run.watch(&mut rows), Ok(4));
    assert_eq!(rows[4..], [noise; 2]);
}

#[test]
fn with_no_live_call_nothing_is_shown() {
    let program = loaded();
    let mut run = begun(&program);
    run.budget(100, &mut [0; 16]);
    assert_eq!(run.watch(&mut []), Ok(0));
    assert_eq!(run.topmost(), []);
}
