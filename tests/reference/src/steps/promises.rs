//! The rules of PROM and FORCE.

use super::{Halt, Step, UNDEF};
use crate::bounds::ACTIVATIONS;
use crate::instruction::Register;
use crate::state::{Activation, End, Opener, Promise, State, Value};

impl State {
    /// PROM: a new promise on the own frame; PROMISES while 64 count.
    pub(super) fn promise(&mut self, d: Register, block: u8) -> Step {
        let place = self.free_promise().ok_or(Halt::Ends(End::Promises))?;
        self.promises[place] = Some(Promise {
            frame: self.top().frame,
            block,
            cache: None,
        });
        self.assign(d, Value::Promise(place))
    }

    /// FORCE: the cached integer at once; else UNDEF if the promise is being
    /// forced, DEEP if 32 activations live, or a new activation of its block.
    pub(super) fn force(&mut self, d: Register, place: usize) -> Step {
        let promise = self.promise_at(place).clone();
        if let Some(integer) = promise.cache {
            return self.assign(d, Value::Integer(integer));
        }
        let opener = Opener::Force(place);
        if self.activations.iter().any(|a| a.opener == opener) {
            return Err(UNDEF);
        }
        self.open(Activation {
            opener,
            d,
            frame: promise.frame,
            block: promise.block,
            next: 0,
        })
    }

    /// The promise at a place that an operand refers to.
    pub(super) fn promise_at(&self, place: usize) -> &Promise {
        self.promises[place]
            .as_ref()
            .expect("a promise referred to")
    }

    /// Goes past the instruction and opens an activation; DEEP if it is the 33rd.
    pub(super) fn open(&mut self, activation: Activation) -> Step {
        if self.activations.len() >= ACTIVATIONS {
            return Err(Halt::Ends(End::Deep));
        }
        self.pass(1);
        self.activations.push(activation);
        Ok(())
    }
}
