//! The state that two arrays stand for, one of bytes and one of numbers, whatever they hold.

use crate::state::{
    Activation, End, Frame, Opener, Promise, State, Status, Value, Vector, ACTIVATIONS, ITEMS,
    PLACES, REGISTERS,
};
use std::array::from_fn;

/// How many bytes there are, and how many numbers.
pub const BYTES: usize = 2632;
/// How many numbers there are.
pub const NUMBERS: usize = 2129;

/// Bytes and numbers of a frame, and where its function stands among the bytes.
pub const STRIDE: usize = 32;
/// Where the function of a frame stands among its bytes; its version stands behind it.
pub const OWNER: usize = 24;
/// Where the places of the cells begin.
pub const CELL_PLACES: usize = 1024;
/// Where the activations begin, of 8 bytes each.
pub const STACK: usize = 2048;
/// The bytes of an activation.
pub const ACTIVATION: usize = 8;
/// Where the promises begin, of 4 bytes each.
pub const DELAYS: usize = 2304;
/// The bytes of a promise.
pub const DELAY: usize = 4;
/// Where the lengths of the vectors begin.
pub const LENGTHS: usize = 2560;
/// How many calls are live.
pub const CALLS: usize = 2624;
/// How many activations are live.
pub const DEPTH: usize = 2625;
/// Whether the run goes on.
pub const STATUS: usize = 2626;
/// The length of the result.
pub const LENGTH: usize = 2627;

/// Where the items of the vectors begin.
pub const ITEM: usize = 1024;
/// Where the caches of the promises begin.
pub const CACHES: usize = 2048;
/// Where the items of the result begin.
pub const RESULT: usize = 2112;
/// The value of the end.
pub const ENDING: usize = 2128;

/// The tags of what a cell holds; all else is nothing.
pub const INTEGER_TAG: u8 = 1;
/// The tag of a vector.
pub const VECTOR_TAG: u8 = 2;
/// The tag of a promise.
pub const PROMISE_TAG: u8 = 3;

/// The arrays of a state.
#[derive(Clone, Copy)]
pub struct Arrays<'a> {
    /// The bytes.
    pub bytes: &'a [u8; BYTES],
    /// The numbers.
    pub numbers: &'a [i64; NUMBERS],
}

impl Arrays<'_> {
    /// What a cell of a frame holds: registers are the cells 0 to 15, names 16 to 23.
    pub fn cell(self, frame: usize, cell: usize) -> Value {
        let at = STRIDE * frame + cell;
        let place = self.bytes[CELL_PLACES + at];
        match self.bytes[at] {
            INTEGER_TAG => Value::Integer(self.numbers[at]),
            VECTOR_TAG => Value::Vector(place),
            PROMISE_TAG => Value::Promise(place),
            _ => Value::Empty,
        }
    }

    /// A frame.
    pub fn frame(self, frame: usize) -> Frame {
        let owner = STRIDE * frame + OWNER;
        Frame {
            function: self.bytes[owner],
            version: self.bytes[owner + 1],
            registers: from_fn(|register| self.cell(frame, register)),
            names: from_fn(|name| self.cell(frame, REGISTERS + name)),
        }
    }

    /// An activation.
    pub fn activation(self, number: usize) -> Activation {
        let byte = |field: usize| self.bytes[STACK + ACTIVATION * number + field];
        Activation {
            opener: match byte(0) {
                0 => Opener::Call,
                _ => Opener::Force(byte(1)),
            },
            d: byte(2),
            frame: byte(3),
            block: byte(4),
            next: byte(5),
        }
    }

    /// A vector.
    pub fn vector(self, number: usize) -> Vector {
        Vector {
            length: self.bytes[LENGTHS + number],
            items: from_fn(|item| self.numbers[ITEM + ITEMS * number + item]),
        }
    }

    /// A promise.
    pub fn promise(self, number: usize) -> Promise {
        let byte = |field: usize| self.bytes[DELAYS + DELAY * number + field];
        Promise {
            frame: byte(0),
            block: byte(1),
            cache: (byte(2) != 0).then(|| self.numbers[CACHES + number]),
        }
    }

    /// Whether the run goes on.
    pub fn status(self) -> Status {
        let end = match self.bytes[STATUS] {
            0 => return Status::Running,
            1 => End::Integer(self.numbers[ENDING]),
            2 => End::Vector(self.bytes[LENGTH]),
            3 => End::Undef,
            4 => End::Deep,
            5 => End::Vectors,
            _ => End::Promises,
        };
        Status::Ended(end)
    }

    /// The state.
    pub fn state(self) -> State {
        State {
            frames: from_fn::<_, ACTIVATIONS, _>(|frame| self.frame(frame)),
            calls: self.bytes[CALLS],
            activations: from_fn(|number| self.activation(number)),
            depth: self.bytes[DEPTH],
            vectors: from_fn::<_, PLACES, _>(|number| self.vector(number)),
            promises: from_fn(|number| self.promise(number)),
            result: from_fn(|item| self.numbers[RESULT + item]),
            status: self.status(),
        }
    }
}
