//! Why a step makes UNDEF.

use super::changes::value;
use super::spot::Spot;
use super::unfit::no_fit;
use library::{Held, Opener, State, FIR_REGISTERS};
use reference::{kinds, Instruction};

/// Why the instruction at a spot makes UNDEF in a state.
pub fn cause(state: &State, spot: &Spot) -> String {
    let why = spot.instruction().and_then(|item| found(state, spot, item));
    why.unwrap_or_else(|| "the instruction has no result".to_string())
}

/// Why an instruction makes UNDEF, if what its operands hold shows it.
fn found(state: &State, spot: &Spot, instruction: &Instruction) -> Option<String> {
    match *instruction {
        Instruction::Get { a, i, .. } | Instruction::Set { a, i, .. } => {
            let (index, vector) = (integer(state, spot, i)?, held(state, spot, a)?);
            let vector = value(state, vector);
            Some(format!("index {index} is outside of {vector}"))
        }
        Instruction::Arith { op, a, b, .. } => {
            arithmetic(op, integer(state, spot, a)?, integer(state, spot, b)?)
        }
        Instruction::Cast { d, a } => {
            let holds = value(state, held(state, spot, a)?);
            let (a, d) = (spot.called(a), spot.called(d));
            Some(format!("{a} holds {holds}, which is not of {d}'s kind"))
        }
        Instruction::Named { x, .. } => Some(format!("x{x} is not set")),
        Instruction::Force { a, .. } => forced(state, promise(state, spot, a)?),
        Instruction::Peek { a, x, .. } => {
            let call = state.promise(promise(state, spot, a)?)?.call;
            let unset = state.look(call, FIR_REGISTERS + usize::from(x))? == Held::Nothing;
            unset.then(|| format!("x{x} of call {call} is not set"))
        }
        Instruction::Dispatch { .. } => no_fit(state, spot, instruction),
        _ => None,
    }
}

/// Words for a promise that is being forced.
fn forced(state: &State, place: usize) -> Option<String> {
    let mut activations = (0..state.depth.into()).filter_map(|index| state.activation(index));
    let pending = activations.any(|activation| activation.opener == Opener::Force(place));
    pending.then(|| format!("p{place} is being forced"))
}

/// What a register of the step's call holds.
pub fn held(state: &State, spot: &Spot, register: u8) -> Option<Held> {
    state.look(spot.activation.call, register.into())
}

/// The integer that a register of the step's call holds.
fn integer(state: &State, spot: &Spot, register: u8) -> Option<i64> {
    match held(state, spot, register)? {
        Held::Integer(integer) => Some(integer),
        _ => None,
    }
}

/// The place of the promise that a register of the step's call holds.
fn promise(state: &State, spot: &Spot, register: u8) -> Option<usize> {
    match held(state, spot, register)? {
        Held::Promise(place) => Some(place),
        _ => None,
    }
}

/// Why an operation on two integers has no result.
fn arithmetic(op: u8, a: i64, b: i64) -> Option<String> {
    let sign = match op {
        kinds::ADD => "+",
        kinds::SUBTRACT => "-",
        kinds::MULTIPLY => "*",
        kinds::DIVIDE if b == 0 => return Some(format!("{a} is divided by 0")),
        kinds::DIVIDE => "/",
        _ => return None,
    };
    Some(format!("{a} {sign} {b} is out of range"))
}
