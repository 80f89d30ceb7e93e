//! "Watching a call": what a service screen shows of the topmost call.

use crate::bounds::Integer;
use crate::program::Program;
use crate::state::{State, Value};
use crate::types::{Mark, Type};

/// What a register holds, as a screen shows it.
#[derive(Clone, PartialEq, Eq, Debug)]
pub enum Shown {
    /// Nothing.
    Nothing,
    /// An integer.
    Integer(Integer),
    /// The items of a vector.
    Vector(Vec<Integer>),
    /// A promise, with the mark of its block.
    Promise(Mark),
}

/// A register of the topmost call.
#[derive(Clone, PartialEq, Eq, Debug)]
pub struct Register {
    /// Its declared type.
    pub declared: Type,
    /// What it holds.
    pub shown: Shown,
}

/// The question to a list: it has a record for each register.
pub const TOO_SHORT: u8 = 22;

impl State {
    /// The registers of the topmost call, one for each that its version declares; none where
    /// no call is live.
    pub fn watch(&self, program: &Program) -> Vec<Register> {
        let Some(frame) = self.frames.last() else {
            return vec![];
        };
        let version = program.version(frame.function.into(), frame.version.into());
        let version = version.expect("a live call is of a version of its program");
        let registers = version.head.types.iter().zip(&frame.registers);
        let shown = registers.map(|(ty, held)| Register {
            declared: *ty,
            shown: self.shown(program, *held),
        });
        shown.collect()
    }

    /// What is held, as a screen shows it.
    fn shown(&self, program: &Program, held: Option<Value>) -> Shown {
        match held {
            None => Shown::Nothing,
            Some(Value::Integer(integer)) => Shown::Integer(integer),
            Some(Value::Vector(place)) => {
                let items = self.vectors[place].clone();
                Shown::Vector(items.expect("a vector that is held has items"))
            }
            Some(Value::Promise(place)) => {
                let promise = self.promises[place].as_ref();
                let promise = promise.expect("a promise that is held is there");
                let block = self.block(program, promise.frame, promise.block);
                Shown::Promise(block.expect("a promise is of a block").head.mark)
            }
        }
    }
}
