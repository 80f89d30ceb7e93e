//! The rule of a block end: a call returns, a force caches, or the run is DONE.

use super::{Halt, Step};
use crate::bounds::Integer;
use crate::program::{Block, Program, Version};
use crate::state::{End, Opener, State, Status, Value};
use crate::types::Kind;

impl State {
    /// Ends the newest activation with the value of its block's result register.
    pub(super) fn end_block(
        &mut self,
        program: &Program,
        version: &Version,
        block: &Block,
    ) -> Step {
        let opener = self.top().opener;
        let needed = match opener {
            Opener::Call => version.head.returns.kind(),
            Opener::Force(_) => Kind::INTEGER,
        };
        let value = self.operand(program, block.head.result, needed)?;
        match (opener, value) {
            (Opener::Call, _) => drop(self.frames.pop()),
            (Opener::Force(place), Value::Integer(integer)) => self.cache(place, integer),
            (Opener::Force(_), _) => return Err(Halt::Stuck),
        }
        self.give(value);
        Ok(())
    }

    /// A force caches its integer.
    fn cache(&mut self, place: usize, integer: Integer) {
        if let Some(promise) = &mut self.promises[place] {
            promise.cache = Some(integer);
        }
    }

    /// Closes the newest activation; the one below takes the value into d, or
    /// the run is DONE with it.
    fn give(&mut self, value: Value) {
        let closed = self.activations.pop().expect("an activation lives");
        match self.activations.last() {
            Some(below) => {
                let frame = below.frame;
                self.frames[frame].registers[usize::from(closed.d)] = Some(value);
            }
            None => self.done(value),
        }
    }

    /// DONE: no call lives any more, and the value is kept.
    fn done(&mut self, value: Value) {
        let end = match value {
            Value::Integer(integer) => End::Integer(integer),
            Value::Vector(place) => {
                self.result = self.vector_at(place).clone();
                End::Vector(self.result.len())
            }
            Value::Promise(_) => unreachable!("no return kind holds a promise"),
        };
        self.status = Status::Ended(end);
    }
}
