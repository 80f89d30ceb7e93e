//! The parts of a state that its functions do not name: activations, vectors
//! and promises, read out of its numbers.

use crate::constants::{FIR_ACTIVATIONS, FIR_ITEMS, FIR_PLACES, FIR_STRIDE};
use crate::state::{State, ACTIVATION, OWNER, PROMISE};

/// What opened an activation.
#[derive(Clone, Copy, PartialEq, Eq, Debug)]
pub enum Opener {
    /// A call, or the start of the run.
    Call,
    /// A force of the promise at a place.
    Force(usize),
}

/// A block that is being executed.
#[derive(Clone, Copy, PartialEq, Eq, Debug)]
pub struct Activation {
    /// What opened it.
    pub opener: Opener,
    /// The register below that takes its result.
    pub d: u8,
    /// The call whose registers and names it works on.
    pub call: usize,
    /// The block's number.
    pub block: usize,
    /// The number of the next instruction.
    pub next: usize,
}

/// A delayed block.
#[derive(Clone, Copy, PartialEq, Eq, Debug)]
pub struct Promise {
    /// The call it works on.
    pub call: usize,
    /// The block's number in the version of that call.
    pub block: usize,
    /// The integer that a force of it gave.
    pub cache: Option<i64>,
}

impl State {
    /// The function and the version of a live call.
    pub fn owner(&self, call: usize) -> Option<(u8, u8)> {
        let live = call < self.calls.into() && call < FIR_ACTIVATIONS;
        let at = FIR_STRIDE * call + OWNER;
        live.then(|| (self.tags[at], self.tags[at + 1]))
    }

    /// A live activation, the oldest being 0.
    pub fn activation(&self, index: usize) -> Option<Activation> {
        if index >= self.depth.into() {
            return None;
        }
        let numbers = self.stack.chunks_exact(ACTIVATION).nth(index)?;
        let &[opener, promise, d, call, block, next, ..] = numbers else {
            return None;
        };
        let opener = match opener {
            0 => Opener::Call,
            _ => Opener::Force(promise.into()),
        };
        Some(Activation {
            opener,
            d,
            call: call.into(),
            block: block.into(),
            next: next.into(),
        })
    }

    /// The newest activation.
    pub fn top(&self) -> Option<Activation> {
        self.activation(usize::from(self.depth).checked_sub(1)?)
    }

    /// The items of the vector at a place; they mean something where a register,
    /// a name or the result refers to it.
    pub fn vector(&self, place: usize) -> Option<&[i64]> {
        let length = usize::from(*self.lengths.get(place)?).min(FIR_ITEMS);
        self.items.chunks_exact(FIR_ITEMS).nth(place)?.get(..length)
    }

    /// The promise at a place; it means something where a register, a name or a
    /// pending force refers to it.
    pub fn promise(&self, place: usize) -> Option<Promise> {
        if place >= FIR_PLACES {
            return None;
        }
        let &[call, block, forced, _] = self.promises.chunks_exact(PROMISE).nth(place)? else {
            return None;
        };
        Some(Promise {
            call: call.into(),
            block: block.into(),
            cache: (forced != 0).then(|| self.caches[place]),
        })
    }
}
