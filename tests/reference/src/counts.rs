//! "Steps": which vectors and promises count, and the place of a new one.

use crate::bounds::{PROMISES, VECTORS};
use crate::state::{Opener, State, Value};
use std::collections::BTreeSet;

impl State {
    /// The places of the vectors that a register or a name refers to.
    pub fn counted_vectors(&self) -> BTreeSet<usize> {
        let place = |value| match value {
            Value::Vector(place) => Some(place),
            _ => None,
        };
        self.held().filter_map(place).collect()
    }

    /// The places of the promises that a register, a name or a pending force refers to.
    pub fn counted_promises(&self) -> BTreeSet<usize> {
        let place = |value| match value {
            Value::Promise(place) => Some(place),
            _ => None,
        };
        let pending = self.activations.iter().filter_map(|a| match a.opener {
            Opener::Force(place) => Some(place),
            Opener::Call => None,
        });
        self.held().filter_map(place).chain(pending).collect()
    }

    /// The place of a new vector: the lowest that does not count; none while 64 count.
    pub fn free_vector(&self) -> Option<usize> {
        lowest_outside(&self.counted_vectors(), VECTORS)
    }

    /// The place of a new promise: the lowest that does not count; none while 64 count.
    pub fn free_promise(&self) -> Option<usize> {
        lowest_outside(&self.counted_promises(), PROMISES)
    }

    /// The same state with nothing at the places that nothing refers to, for comparison.
    pub fn tidied(mut self) -> State {
        let (vectors, promises) = (self.counted_vectors(), self.counted_promises());
        for (place, vector) in self.vectors.iter_mut().enumerate() {
            vector.take_if(|_| !vectors.contains(&place));
        }
        for (place, promise) in self.promises.iter_mut().enumerate() {
            promise.take_if(|_| !promises.contains(&place));
        }
        self
    }
}

/// The lowest place below the bound that is not in the set.
fn lowest_outside(counted: &BTreeSet<usize>, bound: usize) -> Option<usize> {
    (0..bound).find(|place| !counted.contains(place))
}
