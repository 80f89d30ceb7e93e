//! The vectors, the promises, and the places for new ones.

use reference::bounds::{ITEMS, PROMISES, VECTORS};

/// The places for new vectors or promises: those known to be free, one bit
/// each. Which places count is worked out only when none is known.
pub struct Free(u64);

impl Free {
    /// All places but the first ones.
    pub fn from(first: usize) -> Free {
        Free(u64::MAX << first)
    }

    /// A free place; none if all count, as `counted` then says.
    #[inline(always)]
    pub fn take(&mut self, counted: impl FnOnce() -> u64) -> Option<usize> {
        if self.0 == 0 {
            self.0 = !counted();
            if self.0 == 0 {
                return None;
            }
        }
        let place = self.0.trailing_zeros() as usize;
        self.0 &= self.0 - 1;
        Some(place)
    }
}

/// A vector.
#[derive(Clone, Copy)]
pub struct Vector {
    /// How many items it has.
    pub length: usize,
    /// The items, and others after them.
    pub items: [i64; ITEMS],
}

impl Vector {
    /// A vector without items.
    pub const EMPTY: Vector = Vector {
        length: 0,
        items: [0; ITEMS],
    };

    /// The items.
    #[inline(always)]
    pub fn items(&self) -> &[i64] {
        &self.items[..self.length.min(ITEMS)]
    }

    /// The position of an index; none if it is outside.
    #[inline(always)]
    pub fn position(&self, index: i64) -> Option<usize> {
        let position = index as u64 as usize;
        (position < self.length).then_some(position % ITEMS)
    }
}

/// A promise.
#[derive(Clone, Copy)]
pub struct Promise {
    /// Its frame.
    pub frame: usize,
    /// Where its block stands.
    pub block: u32,
    /// Is it forced, being forced, or neither?
    pub state: Forcing,
    /// The integer of a forced one.
    pub cache: i64,
}

/// How far the force of a promise is.
#[derive(Clone, Copy, PartialEq)]
pub enum Forcing {
    /// It was not forced.
    Not,
    /// It is being forced.
    Begun,
    /// It was forced.
    Done,
}

impl Promise {
    /// A promise that nothing refers to.
    pub const NONE: Promise = Promise {
        frame: 0,
        block: 0,
        state: Forcing::Not,
        cache: 0,
    };
}

/// All vectors by place.
pub type Vectors = [Vector; VECTORS];

/// All promises by place.
pub type Promises = [Promise; PROMISES];
