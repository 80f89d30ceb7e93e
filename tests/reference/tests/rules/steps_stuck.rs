//! "Stuck": states that no run reaches.

use crate::support::{Run, UNTOUCHED};
use reference::state::{Activation, Frame, Opener, Promise};
use reference::{Answer, Said, State, Value};

/// Stops at a SET of r0, with a promise in r3 and one integer in r1 and r2.
fn at_set() -> Run {
    let text = "version 0.0(r0: own vector, r1: int, r2: int) -> int
                  registers r3: quiet promise, r4: vector, r5: value
                  block 0 reflective -> r1
                    r3 = prom 1
                    set r0[r1] = r2
                    r1 = force r3
                  block 1 quiet -> r2
                version 0.1(r0: int) -> int
                  block 0 quiet -> r0";
    let mut run = Run::begin(text, &[1, 7, -1, 0, -1, 9]);
    run.steps(1);
    run
}

/// A body with one instruction over registers of every kind, about to execute it.
fn at_instruction(instruction: &str) -> Run {
    let text = format!(
        "version 0.0(r0: own vector, r1: int, r2: vector, r3: value, r4: any) -> int
           registers r5: quiet promise, r6: own vector, r7: value
           block 0 reflective -> r1
             r5 = prom 1
             {instruction}
           block 1 quiet -> r1"
    );
    let mut run = Run::begin(&text, &[1, 7, -1, 0, 1, 8, -1, 3, -1, 4]);
    run.steps(1);
    run
}

/// Asserts that a step, and a budget, are stuck and change nothing.
#[track_caller]
fn stuck(run: &Run, change: impl FnOnce(&mut State)) {
    let mut state = run.state.clone();
    change(&mut state);
    let before = state.clone();
    let (after, said) = state.step(&run.program);
    assert_eq!(said, Said::Stuck);
    assert_eq!(after, before);
    let mut buffer = UNTOUCHED;
    let (after, answer, steps) = after.budget(&run.program, 5, &mut buffer);
    assert_eq!((answer, steps), (Answer::Stuck, 0));
    assert_eq!(after, before);
    assert_eq!(buffer, UNTOUCHED);
}

/// The instructions, each with its registers that must not be empty.
const OPERANDS: [(&str, &[usize]); 17] = [
    ("r3 = move r1", &[1]),
    ("r6 = use r0", &[0]),
    ("r6 = dup r0", &[0]),
    ("r6 = vec [r1]", &[1]),
    ("r1 = len r0", &[0]),
    ("r1 = get r0[r1]", &[0, 1]),
    ("set r0[r1] = r1", &[0, 1]),
    ("r1 = add r1, r1", &[1]),
    ("r1 = select r1 ? r1 : r1", &[1]),
    ("r4 = cast r3", &[3]),
    ("store x0 = r3", &[3]),
    ("r1 = force r5", &[5]),
    ("r3 = peek r5.x0", &[5]),
    ("poke r5.x0 = r3", &[5, 3]),
    (
        "r1 = call 0.0(r0, r1, r2, r3, r4)",
        &[0, 1, 2, 3, 4],
    ),
    (
        "r1 = dispatch 0(r0: own vector, r1: int, r2: vector, r3: value, r4: any) -> int reflective",
        &[0, 1, 2, 3, 4],
    ),
    ("skip 0 unless r1", &[1]),
];

#[test]
fn stuck_on_an_empty_operand_of_each_instruction() {
    for (instruction, registers) in OPERANDS {
        let run = at_instruction(instruction);
        for &register in registers {
            stuck(&run, |state| state.frames[0].registers[register] = None);
        }
    }
}

#[test]
fn stuck_on_an_operand_of_another_kind() {
    let integer = Some(Value::Integer(0));
    let vector = Some(Value::Vector(1));
    let promise = Some(Value::Promise(0));
    for (instruction, register, value) in [
        ("r3 = move r1", 1, promise),
        ("r6 = use r0", 0, integer),
        ("r6 = dup r2", 2, integer),
        ("r6 = vec [r1]", 1, vector),
        ("r1 = len r2", 2, integer),
        ("r1 = get r2[r1]", 2, promise),
        ("r1 = get r2[r1]", 1, vector),
        ("set r0[r1] = r1", 0, integer),
        ("set r0[r1] = r1", 1, vector),
        ("r1 = add r1, r1", 1, promise),
        ("r1 = select r1 ? r1 : r1", 1, vector),
        ("store x0 = r3", 3, promise),
        ("r1 = force r5", 5, integer),
        ("r3 = peek r5.x0", 5, vector),
        ("poke r5.x0 = r3", 5, integer),
        ("poke r5.x0 = r3", 3, promise),
        ("r1 = call 0.0(r0, r1, r2, r3, r4)", 1, vector),
        ("r1 = dispatch 0(r1: int) -> int quiet", 1, vector),
        ("skip 0 unless r1", 1, promise),
    ] {
        let run = at_instruction(instruction);
        stuck(&run, |state| state.frames[0].registers[register] = value);
    }
}

#[test]
fn stuck_on_a_set_of_a_vector_that_another_register_holds() {
    stuck(&at_set(), |state| {
        state.frames[0].registers[4] = Some(Value::Vector(0));
    });
}

#[test]
fn stuck_on_a_set_of_a_vector_that_a_name_holds() {
    stuck(&at_set(), |state| {
        state.frames[0].names[3] = Some(Value::Vector(0));
    });
}

#[test]
fn stuck_on_a_set_comes_before_undef() {
    stuck(&at_set(), |state| {
        state.frames[0].registers[1] = Some(Value::Integer(99));
        state.frames[0].registers[4] = Some(Value::Vector(0));
    });
}

#[test]
fn stuck_on_a_name_that_holds_a_promise() {
    for instruction in ["r3 = named x0", "r3 = peek r5.x0"] {
        stuck(&at_instruction(instruction), |state| {
            state.frames[0].names[0] = Some(Value::Promise(0));
        });
    }
}

#[test]
fn stuck_on_values_that_point_outside_the_state() {
    for value in [
        Value::Vector(64),
        Value::Vector(usize::MAX),
        Value::Vector(7),
        Value::Promise(64),
        Value::Promise(usize::MAX),
        Value::Promise(7),
    ] {
        stuck(&at_set(), |state| {
            state.frames[0].registers[5] = Some(value);
        });
        stuck(&at_set(), |state| state.frames[0].names[5] = Some(value));
    }
}

#[test]
fn stuck_on_a_promise_that_points_outside() {
    for (frame, block) in [(1, 1), (usize::MAX, 1), (0, 2), (0, 255)] {
        stuck(&at_set(), |state| {
            let cache = None;
            state.promises[0] = Some(Promise {
                frame,
                block,
                cache,
            });
        });
    }
}

#[test]
fn stuck_on_a_position_that_is_neither_an_instruction_nor_a_block_end() {
    for (block, next) in [(0, 4), (1, 1), (2, 0), (255, 0), (0, usize::MAX)] {
        stuck(&at_set(), |state| {
            state.activations[0].block = block;
            state.activations[0].next = next;
        });
    }
}

#[test]
fn stuck_on_an_activation_of_a_frame_that_does_not_exist() {
    stuck(&at_set(), |state| state.activations[0].frame = 1);
    stuck(&at_set(), |state| state.activations[0].frame = usize::MAX);
    stuck(&at_set(), |state| state.frames.clear());
}

#[test]
fn stuck_on_a_frame_of_a_version_that_does_not_exist() {
    stuck(&at_set(), |state| state.frames[0].version = 2);
    stuck(&at_set(), |state| state.frames[0].function = 1);
}

#[test]
fn stuck_on_an_older_frame_of_a_version_that_does_not_exist() {
    let text = "version 0.0(r0: int) -> int
                  block 0 quiet -> r0
                    r0 = call 0.1(r0)
                version 0.1(r0: int) -> int
                  block 0 quiet -> r0";
    let mut run = Run::begin(text, &[-1, 5]);
    run.steps(1);
    stuck(&run, |state| state.frames[0].version = 2);
    stuck(&run, |state| state.frames[1].version = 2);
}

#[test]
fn stuck_without_an_activation() {
    stuck(&at_set(), |state| {
        state.activations.clear();
        state.frames.clear();
    });
    stuck(&at_set(), |state| state.activations.clear());
}

#[test]
fn stuck_on_a_first_activation_that_a_force_opened() {
    stuck(&at_set(), |state| {
        state.activations[0].opener = Opener::Force(0);
    });
}

#[test]
fn stuck_on_a_force_of_a_promise_that_does_not_exist() {
    for place in [1, 64, usize::MAX] {
        stuck(&at_set(), |state| {
            state.activations.push(Activation {
                opener: Opener::Force(place),
                d: 1,
                frame: 0,
                block: 1,
                next: 0,
            });
        });
    }
}

#[test]
fn stuck_on_a_d_that_the_version_does_not_declare() {
    for d in [6, 16, 255] {
        stuck(&at_set(), |state| {
            state.activations.push(Activation {
                opener: Opener::Call,
                d,
                frame: 1,
                block: 0,
                next: 0,
            });
            let frame = Frame::new(0, 1, &[Value::Integer(1)]);
            state.frames.push(frame);
        });
    }
}

#[test]
fn stuck_on_frames_that_are_not_those_of_the_calls() {
    stuck(&at_set(), |state| {
        let frame = state.frames[0].clone();
        state.frames.push(frame);
    });
}

#[test]
fn stuck_on_a_block_end_without_a_result() {
    stuck(&at_set(), |state| {
        state.activations[0].next = 3;
        state.frames[0].registers[1] = None;
    });
}

#[test]
fn stuck_on_a_block_end_with_a_result_of_another_kind() {
    stuck(&at_set(), |state| {
        state.activations[0].next = 3;
        state.frames[0].registers[1] = Some(Value::Vector(0));
    });
    stuck(&at_set(), |state| {
        state.frames[0].registers[2] = Some(Value::Vector(0));
        state.activations.push(Activation {
            opener: Opener::Force(0),
            d: 1,
            frame: 0,
            block: 1,
            next: 0,
        });
    });
}

#[test]
fn budget_that_gets_stuck_later_gives_the_steps_so_far() {
    let run = at_set();
    let mut state = run.state.clone();
    state.frames[0].registers[3] = None;
    let (_, answer, steps) = state.budget(&run.program, 9, &mut UNTOUCHED.clone());
    assert_eq!((answer, steps), (Answer::Stuck, 1));
}
