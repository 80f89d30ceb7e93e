//! The rule of each instruction, by kind number, after its operands are looked at.

use super::values::arith;
use super::{Halt, Step};
use crate::form::Range;
use crate::instruction::Instruction;
use crate::program::{Program, Version};
use crate::questions::needs;
use crate::state::{State, Value};

use Value::{Integer, Promise, Vector};

impl State {
    /// Executes one instruction of the version that the newest activation is in.
    pub(super) fn execute(
        &mut self,
        range: Range,
        program: &Program,
        version: &Version,
        instruction: &Instruction,
    ) -> Step {
        use Instruction as I;
        let operands = self.operands(program, version, instruction)?;
        match (instruction, &operands[..]) {
            (&I::Lit { d, value }, []) => self.assign(d, Integer(value)),
            (&I::Move { d, .. }, &[value]) => self.assign(d, value),
            (&I::Use { d, a }, &[value]) => self.take(d, a, value),
            (&I::Dup { d, .. }, &[Vector(place)]) => self.duplicate(d, place),
            (&I::Vec { d, .. }, items) => self.make_vector(d, items),
            (&I::Len { d, .. }, &[Vector(place)]) => self.length(d, place),
            (&I::Get { d, .. }, &[Vector(place), Integer(i)]) => self.get(d, place, i),
            (&I::Set { .. }, &[Vector(place), Integer(i), Integer(e)]) => self.set(place, i, e),
            (&I::Arith { d, op, .. }, &[Integer(a), Integer(b)]) => {
                self.assign(d, arith(range, op, a, b)?)
            }
            (&I::Select { d, .. }, &[Integer(c), a, b]) => {
                self.assign(d, if c != 0 { a } else { b })
            }
            (&I::Cast { d, .. }, &[value]) => self.cast(program, version, d, value),
            (&I::Named { d, x }, []) => self.read_name(self.top().frame, x, d),
            (&I::Store { x, .. }, &[value]) => self.write_name(self.top().frame, x, value),
            (&I::Prom { d, block }, []) => self.promise(d, block),
            (&I::Force { d, .. }, &[Promise(place)]) => self.force(d, place),
            (&I::Peek { d, x, .. }, &[Promise(place)]) => {
                self.read_name(self.promise_at(place).frame, x, d)
            }
            (&I::Poke { x, .. }, &[Promise(place), value]) => {
                self.write_name(self.promise_at(place).frame, x, value)
            }
            (I::Call { .. }, arguments) => self.call(program, instruction, arguments),
            (I::Dispatch { .. }, arguments) => self.dispatch(program, instruction, arguments),
            (&I::Skip { n, .. }, &[Integer(a)]) => self.skip(a, n),
            _ => Err(Halt::Stuck),
        }
    }

    /// The values of the operands; stuck if one is empty or of a kind that
    /// "Types fit when" does not name for it.
    fn operands(
        &self,
        program: &Program,
        version: &Version,
        instruction: &Instruction,
    ) -> Result<Vec<Value>, Halt> {
        let needs = needs(program, version, instruction);
        let reads = instruction.reads().into_iter().zip(needs);
        reads
            .map(|(register, need)| self.operand(program, register, need.kind))
            .collect()
    }
}
