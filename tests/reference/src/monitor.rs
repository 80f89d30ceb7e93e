//! "What demand 3 speaks of": what holds of each state of a run and of each step tried.
//! "Levels of staff": no version above the run's level is ever entered.

use crate::bounds::REGISTERS;
use crate::instruction::{Instruction, Register};
use crate::program::Program;
use crate::state::{State, Value};
use crate::steps::Said;
use crate::types::{Level, Mark};

/// What demand 3 rules out. Calls are numbered by their frames.
#[derive(Clone, Copy, PartialEq, Eq, Debug)]
#[allow(missing_docs)] // The fields are a call and one of its registers.
pub enum Breach {
    /// A live call is of a version that the image in force does not have.
    Unknown { call: usize },
    /// A register of a live call holds a value that is not of its declared type.
    Untyped { call: usize, register: Register },
    /// A register place that no version declares is not empty.
    Undeclared { call: usize, register: Register },
    /// A vector in an owned register is in a named variable too.
    Named { call: usize, register: Register },
    /// A vector in an owned register is in another register too that is not a
    /// borrowed one of a call above.
    Shared { call: usize, register: Register },
    /// The step was stuck.
    Stuck,
    /// A live call is of a version above the run's level.
    Above { call: usize },
    /// A reflective read or write was counted while a quiet call was live.
    Reflective { quiet: usize },
}

/// Checks the calls, registers and names of a state.
pub fn check_state(program: &Program, state: &State) -> Result<(), Breach> {
    let unknown = |&call: &usize| state.version(program, call).is_none();
    if let Some(call) = (0..state.frames.len()).find(unknown) {
        return Err(Breach::Unknown { call });
    }
    for call in 0..state.frames.len() {
        for register in 0..REGISTERS {
            if let Some(value) = state.frames[call].registers[register] {
                check_register(program, state, call, register as Register, value)?;
            }
        }
    }
    Ok(())
}

/// Checks that no live call is of a version above the level of the run.
pub fn check_levels(program: &Program, state: &State, level: Level) -> Result<(), Breach> {
    let above = |&call: &usize| {
        let version = state.version(program, call);
        version.is_none_or(|version| version.level > level)
    };
    match (0..state.frames.len()).find(above) {
        Some(call) => Err(Breach::Above { call }),
        None => Ok(()),
    }
}

/// Checks a step: the state it was tried in, and what it said.
pub fn check_step(program: &Program, before: &State, said: Said) -> Result<(), Breach> {
    let counted = match said {
        Said::Stuck => return Err(Breach::Stuck),
        Said::GoesOn => true,
        Said::Ended(end) => end.counts(),
    };
    let reflective = matches!(
        before.instruction(program),
        Some(Instruction::Peek { .. } | Instruction::Poke { .. })
    );
    match first_quiet_call(program, before) {
        Some(quiet) if counted && reflective => Err(Breach::Reflective { quiet }),
        _ => Ok(()),
    }
}

/// The oldest live call of a version with mark 0, or of one that the image does
/// not have: nothing says that such a call may read or write by reflection.
fn first_quiet_call(program: &Program, state: &State) -> Option<usize> {
    (0..state.frames.len()).find(|&call| {
        state
            .version(program, call)
            .is_none_or(|version| version.mark() == Mark::QUIET)
    })
}

/// Checks a register that holds a value.
fn check_register(
    program: &Program,
    state: &State,
    call: usize,
    register: Register,
    value: Value,
) -> Result<(), Breach> {
    let version = state.version(program, call);
    let Some(version) = version.filter(|version| version.declares(register)) else {
        return Err(Breach::Undeclared { call, register });
    };
    let ty = version.type_of(register);
    let kind = state.kind(program, value);
    if !kind.is_some_and(|kind| kind.within(ty.kind())) {
        return Err(Breach::Untyped { call, register });
    }
    if !ty.is_owned() {
        return Ok(());
    }
    if state.frames.iter().any(|f| f.names.contains(&Some(value))) {
        return Err(Breach::Named { call, register });
    }
    if held_elsewhere(program, state, call, register, value) {
        return Err(Breach::Shared { call, register });
    }
    Ok(())
}

/// Is the vector in another register that is not a borrowed one of a call above?
fn held_elsewhere(
    program: &Program,
    state: &State,
    call: usize,
    register: Register,
    value: Value,
) -> bool {
    let lent = |other_call: usize, other: usize| {
        let version = state.version(program, other_call);
        other_call > call
            && version.is_some_and(|v| v.head.types.get(other).is_some_and(|ty| ty.is_borrowed()))
    };
    state.frames.iter().enumerate().any(|(other_call, frame)| {
        frame.registers.iter().enumerate().any(|(other, &held)| {
            let same_place = (other_call, other) == (call, usize::from(register));
            held == Some(value) && !same_place && !lent(other_call, other)
        })
    })
}
