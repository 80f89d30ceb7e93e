//! The rules of ARITH and CAST, and those of names: NAMED, STORE, PEEK and POKE.

use super::{Halt, Step, UNDEF};
use crate::bounds::Integer;
use crate::form::Range;
use crate::instruction::{Name, Register};
use crate::kinds;
use crate::program::{Program, Version};
use crate::state::{State, Value};

impl State {
    /// CAST: UNDEF if the value is not of d's kind.
    pub(super) fn cast(
        &mut self,
        program: &Program,
        version: &Version,
        d: Register,
        value: Value,
    ) -> Step {
        let kind = self.kind(program, value).ok_or(Halt::Stuck)?;
        if !kind.within(version.type_of(d).kind()) {
            return Err(UNDEF);
        }
        self.assign(d, value)
    }

    /// NAMED and PEEK: UNDEF if the name is unset, stuck if it holds a promise.
    pub(super) fn read_name(&mut self, frame: usize, x: Name, d: Register) -> Step {
        let value = self.frames[frame].names[usize::from(x)].ok_or(UNDEF)?;
        if matches!(value, Value::Promise(_)) {
            return Err(Halt::Stuck);
        }
        self.assign(d, value)
    }

    /// STORE and POKE.
    pub(super) fn write_name(&mut self, frame: usize, x: Name, value: Value) -> Step {
        self.frames[frame].names[usize::from(x)] = Some(value);
        self.pass(1);
        Ok(())
    }
}

/// ARITH: UNDEF if the result is out of range or a divisor is 0.
pub(super) fn arith(range: Range, op: u8, a: Integer, b: Integer) -> Result<Value, Halt> {
    let result = match op {
        kinds::ADD => a.checked_add(b),
        kinds::SUBTRACT => a.checked_sub(b),
        kinds::MULTIPLY => a.checked_mul(b),
        kinds::DIVIDE => quotient(a, b),
        kinds::LESS => Some(Integer::from(a < b)),
        _ => return Err(Halt::Stuck),
    };
    let result = result.and_then(|integer| range.ranged(integer));
    Ok(Value::Integer(result.ok_or(UNDEF)?))
}

/// The quotient, rounded toward minus infinity; none for a divisor of 0, and for
/// the least integer by −1.
fn quotient(a: Integer, b: Integer) -> Option<Integer> {
    let toward_zero = a.checked_div(b)?;
    let rest = a % b;
    let above = rest != 0 && (rest < 0) != (b < 0);
    Some(if above { toward_zero - 1 } else { toward_zero })
}
