//! How the stand-in writes: a state into the numbers of one, and the table of an image.

use crate::snapshot::{arrays, give};
use definitions::store::{
    Arrays, ACTIVATION, BYTES, CACHES, CALLS, CELL_PLACES, DELAY, DELAYS, DEPTH, ENDING,
    INTEGER_TAG, ITEM, LENGTH, LENGTHS, NUMBERS, OWNER, PROMISE_TAG, RESULT, STACK, STATUS, STRIDE,
    VECTOR_TAG,
};
use definitions::{Activation, End, Opener, Promise, State, Status, Value};
use library::State as Snapshot;
use library::FIR_IMAGE_BYTES;
use reference::questions::records;
use reference::Record;

/// The numbers of a state that are written to.
struct Written {
    bytes: Box<[u8; BYTES]>,
    numbers: Box<[i64; NUMBERS]>,
}

/// Makes the numbers of a state stand for another one; those that stand for it already
/// stay.
pub fn put(to: &mut Snapshot, state: &State) {
    let (bytes, numbers) = arrays(to);
    let mut written = Written { bytes, numbers };
    for (frame, own) in state.frames.iter().enumerate() {
        written.bytes[STRIDE * frame + OWNER] = own.function;
        written.bytes[STRIDE * frame + OWNER + 1] = own.version;
        let cells = own.registers.iter().chain(&own.names);
        for (cell, &value) in cells.enumerate() {
            written.cell(frame, cell, value);
        }
    }
    written.bytes[CALLS] = state.calls;
    written.bytes[DEPTH] = state.depth;
    for (number, &activation) in state.activations.iter().enumerate() {
        written.activation(number, activation);
    }
    for (number, vector) in state.vectors.iter().enumerate() {
        written.bytes[LENGTHS + number] = vector.length;
        let items = ITEM + vector.items.len() * number;
        written.numbers[items..][..vector.items.len()].copy_from_slice(&vector.items);
    }
    for (number, &promise) in state.promises.iter().enumerate() {
        written.promise(number, promise);
    }
    written.numbers[RESULT..][..state.result.len()].copy_from_slice(&state.result);
    written.status(state.status);
    give(to, &written.bytes, &written.numbers);
}

impl Written {
    /// What the numbers stand for.
    fn arrays(&self) -> Arrays<'_> {
        Arrays {
            bytes: &self.bytes,
            numbers: &self.numbers,
        }
    }

    /// Puts down what a cell holds.
    fn cell(&mut self, frame: usize, cell: usize, value: Value) {
        if self.arrays().cell(frame, cell) == value {
            return;
        }
        let at = STRIDE * frame + cell;
        match value {
            Value::Empty => self.bytes[at] = 0,
            Value::Integer(integer) => (self.bytes[at], self.numbers[at]) = (INTEGER_TAG, integer),
            Value::Vector(place) => self.refer(at, VECTOR_TAG, place),
            Value::Promise(place) => self.refer(at, PROMISE_TAG, place),
        }
    }

    /// Puts down that a cell refers to a place.
    fn refer(&mut self, at: usize, tag: u8, place: u8) {
        (self.bytes[at], self.bytes[CELL_PLACES + at]) = (tag, place);
    }

    /// Puts down an activation.
    fn activation(&mut self, number: usize, activation: Activation) {
        if self.arrays().activation(number) == activation {
            return;
        }
        let (opener, promise) = match activation.opener {
            Opener::Call => (0, 0),
            Opener::Force(promise) => (1, promise),
        };
        let Activation {
            d,
            frame,
            block,
            next,
            ..
        } = activation;
        let fields = [opener, promise, d, frame, block, next];
        self.bytes[STACK + ACTIVATION * number..][..fields.len()].copy_from_slice(&fields);
    }

    /// Puts down a promise.
    fn promise(&mut self, number: usize, promise: Promise) {
        if self.arrays().promise(number) == promise {
            return;
        }
        let fields = [promise.frame, promise.block, promise.cache.is_some().into()];
        self.bytes[DELAYS + DELAY * number..][..fields.len()].copy_from_slice(&fields);
        if let Some(integer) = promise.cache {
            self.numbers[CACHES + number] = integer;
        }
    }

    /// Puts down whether the run goes on.
    fn status(&mut self, status: Status) {
        if self.arrays().status() == status {
            return;
        }
        let Status::Ended(end) = status else {
            self.bytes[STATUS] = 0;
            return;
        };
        let (code, length, value) = numbers(end);
        (self.bytes[STATUS], self.bytes[LENGTH]) = (code, length);
        self.numbers[ENDING] = value;
    }
}

/// An end's code, length and value.
pub fn numbers(end: End) -> (u8, u8, i64) {
    match end {
        End::Integer(value) => (library::FIR_INTEGER, 0, value),
        End::Vector(length) => (library::FIR_VECTOR, length, 0),
        End::Undef => (library::FIR_UNDEF, 0, 0),
        End::Deep => (library::FIR_DEEP, 0, 0),
        End::Vectors => (library::FIR_VECTORS, 0, 0),
        End::Promises => (library::FIR_PROMISES, 0, 0),
    }
}

/// The bytes of the table before its records, and of a record.
const RECORDS: usize = 2304;
const RECORD: usize = 8;

/// The bytes of a table for an image of so many: no block and no instruction has fewer
/// than 6. No image is longer than the longest.
pub fn table_size(image_length: usize) -> usize {
    RECORDS + image_length.min(FIR_IMAGE_BYTES) / 6 * RECORD
}

/// Fills the table of an accepted image, which is long enough.
pub fn fill(image: &[u8], table: &mut [u8]) {
    table.fill(0);
    let (mut record, mut block) = (0, 0);
    for placed in records(image).expect("an accepted image") {
        let place = placed.offset + 2;
        match placed.item {
            Record::Version(version) => {
                let number = 4 * usize::from(version.function) + usize::from(version.version);
                enter(table, number, place);
                block = 128 + 8 * number;
                continue;
            }
            Record::Level(_) => continue,
            Record::Block(_) => {
                enter(table, block, record);
                block += 1;
            }
            Record::Instruction(_) => {}
        }
        let to = &mut table[RECORDS + RECORD * record..][..RECORD];
        to[0] = image[place];
        for (field, byte) in to[1..6].iter_mut().zip(&image[place + 2..]) {
            *field = *byte;
        }
        to[6..].copy_from_slice(&(place as u16).to_le_bytes());
        record += 1;
    }
}

/// Writes an entry.
fn enter(table: &mut [u8], entry: usize, number: usize) {
    table[2 * entry..][..2].copy_from_slice(&(number as u16).to_le_bytes());
}
