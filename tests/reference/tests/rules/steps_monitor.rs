//! "What demand 3 speaks of": the monitor sees each breach.

use crate::support::Run;
use cases::image;
use reference::bounds::REGISTERS;
use reference::monitor::{check_state, check_step, Breach};
use reference::state::{Activation, Frame, Opener};
use reference::{End, Program, Said, State, Value};

/// A call of 1.0 that borrows r0 of 0.0; r1 is an integer and r2 a shared vector.
fn borrowing() -> Run {
    let text = "version 0.0(r0: own vector, r1: int, r2: vector) -> int
                  registers r3: own vector, r4: quiet promise
                  block 0 quiet -> r1
                    r4 = prom 1
                    r1 = call 1.0(r0, r2)
                  block 1 quiet -> r1
                version 1.0(r0: borrow vector, r1: vector) -> int
                  registers r2: int, r3: vector, r4: own vector
                  block 0 quiet -> r2
                    r2 = lit 5";
    let mut run = Run::begin(text, &[1, 7, -1, 9, 0]);
    run.steps(2);
    run
}

/// The breach of a changed state.
fn breach(change: impl FnOnce(&mut State)) -> Option<Breach> {
    let run = borrowing();
    let mut state = run.state.clone();
    change(&mut state);
    check_state(&run.program, &state).err()
}

#[test]
fn monitor_allows_owned_vectors_in_borrowed_registers_of_calls_above() {
    assert_eq!(breach(|_| ()), None);
}

/// The program of an image that has 0.0 of `borrowing` without its call, and no 1.0.
fn lacking() -> Program {
    let text = "version 0.0(r0: own vector, r1: int, r2: vector) -> int
                  registers r3: own vector, r4: quiet promise
                  block 0 quiet -> r1
                    r4 = prom 1
                  block 1 quiet -> r1";
    Program::accept(&image(text)).expect("an accepted image")
}

#[test]
fn monitor_sees_a_call_of_a_version_that_the_image_does_not_have() {
    let (mut run, other) = (borrowing(), lacking());
    let unknown = Err(Breach::Unknown { call: 1 });
    assert_eq!(check_state(&run.program, &run.state), Ok(()));
    assert_eq!(check_state(&other, &run.state), unknown);
    // Where its registers are empty, too,
    run.state.frames[1].registers = [None; REGISTERS];
    assert_eq!(check_state(&run.program, &run.state), Ok(()));
    assert_eq!(check_state(&other, &run.state), unknown);
    // and before any breach of a register.
    run.state.frames[0].registers[1] = Some(Value::Vector(1));
    assert_eq!(check_state(&other, &run.state), unknown);
}

#[test]
fn monitor_sees_a_value_that_is_not_of_the_declared_type() {
    let call = 0;
    for (register, value) in [
        (1, Value::Vector(1)),
        (0, Value::Integer(1)),
        (2, Value::Promise(0)),
        (4, Value::Integer(1)),
    ] {
        let found = breach(|state| state.frames[0].registers[register] = Some(value));
        let register = register as u8;
        assert_eq!(found, Some(Breach::Untyped { call, register }));
    }
}

#[test]
fn monitor_sees_a_value_in_a_place_that_is_not_declared() {
    let found = breach(|state| state.frames[1].registers[5] = Some(Value::Integer(1)));
    let (call, register) = (1, 5);
    assert_eq!(found, Some(Breach::Undeclared { call, register }));
}

#[test]
fn monitor_sees_an_owned_vector_in_a_name_of_any_live_call() {
    let (call, register) = (0, 0);
    for named in [0, 1] {
        let found = breach(|state| state.frames[named].names[2] = Some(Value::Vector(0)));
        assert_eq!(found, Some(Breach::Named { call, register }));
    }
}

#[test]
fn monitor_sees_an_owned_vector_in_another_register() {
    let (call, register) = (0, 0);
    for (other_call, other) in [(0, 2), (0, 3), (1, 1), (1, 3), (1, 4)] {
        let found = breach(|state| {
            state.frames[other_call].registers[other] = Some(Value::Vector(0));
        });
        assert_eq!(found, Some(Breach::Shared { call, register }));
    }
}

#[test]
fn monitor_allows_borrowed_registers_only_of_calls_above() {
    // An owned register of the newer call holds what the older one lends to nobody.
    let found = breach(|state| {
        state.frames[1].registers[4] = Some(Value::Vector(1));
        state.frames[1].registers[1] = None;
    });
    let (call, register) = (1, 4);
    assert_eq!(found, Some(Breach::Shared { call, register }));
}

#[test]
fn monitor_sees_an_owned_vector_in_a_borrowed_register_of_its_own_or_an_older_call() {
    let text = "version 0.0(r0: own vector, r1: borrow vector) -> int
                  registers r2: int
                  block 0 quiet -> r2
                    r2 = call 1.0(r0)
                version 1.0(r0: own vector) -> int
                  registers r1: int
                  block 0 quiet -> r1
                    r1 = lit 1";
    let mut run = Run::begin(text, &[0, 0]);
    run.state.frames[0].registers[1] = Some(Value::Vector(0));
    let (call, register) = (0, 0);
    let found = check_state(&run.program, &run.state);
    assert_eq!(found, Err(Breach::Shared { call, register }));
    let mut run = Run::begin(text, &[0, 0]);
    run.steps(1);
    run.state.frames[0].registers[1] = Some(Value::Vector(0));
    let (call, register) = (1, 0);
    let found = check_state(&run.program, &run.state);
    assert_eq!(found, Err(Breach::Shared { call, register }));
}

#[test]
fn monitor_sees_a_stuck_step() {
    let run = borrowing();
    let found = check_step(&run.program, &run.state, Said::Stuck);
    assert_eq!(found, Err(Breach::Stuck));
}

/// A reflective call about to PEEK, above a quiet one if so.
fn peeking(above_quiet: bool) -> Run {
    let text = "version 0.0(r0: int) -> value
                  registers r1: quiet promise, r2: value
                  block 0 reflective -> r2
                    r1 = prom 1
                    r2 = peek r1.x0
                  block 1 quiet -> r0
                version 0.1(r0: int) -> int
                  block 0 quiet -> r0";
    let mut run = Run::begin(text, &[-1, 5]);
    run.steps(1);
    if above_quiet {
        run.state
            .frames
            .push(Frame::new(0, 1, &[Value::Integer(1)]));
        run.state.activations.push(Activation {
            opener: Opener::Call,
            d: 0,
            frame: 1,
            block: 0,
            next: 0,
        });
        // Now the older call runs on as if the newer one had forced a block of it.
        let top = run.state.activations[0].clone();
        run.state.activations.push(top);
    }
    run
}

#[test]
fn monitor_sees_a_counted_reflective_step_while_a_quiet_call_is_live() {
    let run = peeking(true);
    let quiet = 1;
    for said in [Said::GoesOn, Said::Ended(End::Undef)] {
        let found = check_step(&run.program, &run.state, said);
        assert_eq!(found, Err(Breach::Reflective { quiet }));
    }
    let stopped = check_step(&run.program, &run.state, Said::Ended(End::Deep));
    assert_eq!(stopped, Ok(()));
}

#[test]
fn monitor_sees_a_counted_reflective_step_while_an_unknown_call_is_live() {
    let mut run = peeking(true);
    run.state.frames[1] = Frame::new(3, 0, &[]);
    let found = check_step(&run.program, &run.state, Said::GoesOn);
    assert_eq!(found, Err(Breach::Reflective { quiet: 1 }));
}

#[test]
fn monitor_allows_reflective_steps_without_a_quiet_call() {
    let run = peeking(false);
    assert_eq!(check_step(&run.program, &run.state, Said::GoesOn), Ok(()));
}
