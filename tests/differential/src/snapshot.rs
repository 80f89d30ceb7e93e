//! The state of a run as numbers, as the proved library writes it, and the states that
//! the numbers stand for: that of the reference, where they are those of a begun run, and
//! that of the definitions, whatever they are.

use definitions::store::{
    Arrays, BYTES, CACHES, CALLS, CELL_PLACES, DELAYS, DEPTH, ENDING, ITEM, LENGTH, LENGTHS,
    NUMBERS, RESULT, STACK, STATUS,
};
use library::State as Snapshot;
use library::{
    ACTIVATION, CELLS, FIR_DEEP, FIR_INTEGER, FIR_IS_INTEGER, FIR_IS_PROMISE, FIR_IS_VECTOR,
    FIR_NOTHING, FIR_PROMISES, FIR_STEPS, FIR_STRIDE, FIR_UNDEF, FIR_VECTOR, FIR_VECTORS, OWNER,
    PROMISE,
};
use reference::bounds::{ACTIVATIONS, ITEMS, NAMES, PROMISES, REGISTERS, VECTORS};
use reference::state::{Activation, Frame, Opener, Promise};
use reference::{End, Integer, State, Status, Value};

const _: () = assert!(CELLS == REGISTERS + NAMES);

/// What fills a state that nothing was written to.
pub const FILLING: u8 = 0xA5;

/// A state that nothing was written to: it stands for none of a begun run.
pub fn untouched() -> Snapshot {
    Snapshot::filled(FILLING)
}

/// The two arrays of a state: its bytes and its numbers.
pub fn arrays(state: &Snapshot) -> (Box<[u8; BYTES]>, Box<[i64; NUMBERS]>) {
    let counts = [state.calls, state.depth, state.status, state.length];
    let bytes: [&[u8]; 7] = [
        &state.tags,
        &state.places,
        &state.stack,
        &state.promises,
        &state.lengths,
        &counts,
        &state.spare,
    ];
    let numbers: [&[i64]; 5] = [
        &state.numbers,
        &state.items,
        &state.caches,
        &state.result,
        &[state.value],
    ];
    let (bytes, numbers) = (bytes.concat(), numbers.concat());
    (
        bytes.try_into().expect("as many as there are"),
        numbers.try_into().expect("as many as there are"),
    )
}

/// Gives a state the numbers of two arrays; its spare bytes too.
pub fn give(to: &mut Snapshot, bytes: &[u8; BYTES], numbers: &[i64; NUMBERS]) {
    to.tags.copy_from_slice(&bytes[..CELL_PLACES]);
    to.places.copy_from_slice(&bytes[CELL_PLACES..STACK]);
    to.stack.copy_from_slice(&bytes[STACK..DELAYS]);
    to.promises.copy_from_slice(&bytes[DELAYS..LENGTHS]);
    to.lengths.copy_from_slice(&bytes[LENGTHS..CALLS]);
    (to.calls, to.depth) = (bytes[CALLS], bytes[DEPTH]);
    (to.status, to.length) = (bytes[STATUS], bytes[LENGTH]);
    to.spare.copy_from_slice(&bytes[LENGTH + 1..]);
    to.numbers.copy_from_slice(&numbers[..ITEM]);
    to.items.copy_from_slice(&numbers[ITEM..CACHES]);
    to.caches.copy_from_slice(&numbers[CACHES..RESULT]);
    to.result.copy_from_slice(&numbers[RESULT..ENDING]);
    to.value = numbers[ENDING];
}

/// The state that the numbers stand for by the definitions, whatever they are.
pub fn meaning(state: &Snapshot) -> definitions::State {
    let (bytes, numbers) = arrays(state);
    let arrays = Arrays {
        bytes: &bytes,
        numbers: &numbers,
    };
    arrays.state()
}

/// The end of a code, with its length and value.
fn end(code: u8, length: u8, value: Integer) -> Result<End, String> {
    match code {
        FIR_INTEGER => Ok(End::Integer(value)),
        FIR_VECTOR if usize::from(length) <= ITEMS => Ok(End::Vector(length.into())),
        FIR_VECTOR => Err(format!("a result of {length} items")),
        FIR_UNDEF => Ok(End::Undef),
        FIR_DEEP => Ok(End::Deep),
        FIR_VECTORS => Ok(End::Vectors),
        FIR_PROMISES => Ok(End::Promises),
        _ => Err(format!("{code} is the code of no end")),
    }
}

/// The state that the numbers stand for, without the vectors and promises
/// that do not count; an error where they are those of no begun run.
pub fn state_of(snapshot: &Snapshot) -> Result<State, String> {
    let frames = (0..live(snapshot.calls)?).map(|call| frame(snapshot, call));
    let activations = (0..live(snapshot.depth)?).map(|index| activation(snapshot, index));
    let mut state = State {
        frames: frames.collect::<Result<_, _>>()?,
        activations: activations.collect::<Result<_, _>>()?,
        vectors: [const { None }; VECTORS],
        promises: [const { None }; PROMISES],
        status: status(snapshot)?,
        result: Vec::new(),
    };
    for place in state.counted_vectors() {
        state.vectors[place] = Some(vector(snapshot, place)?);
    }
    for place in state.counted_promises() {
        state.promises[place] = Some(promise(snapshot, place)?);
    }
    if let Status::Ended(End::Vector(length)) = state.status {
        state.result = snapshot.result[..length].to_vec();
    }
    Ok(state)
}

/// The frame of a live call.
fn frame(snapshot: &Snapshot, frame: usize) -> Result<Frame, String> {
    let first = frame * FIR_STRIDE;
    let (mut registers, mut names) = ([None; REGISTERS], [None; NAMES]);
    let places = registers.iter_mut().chain(&mut names);
    for (cell, place) in (first..).zip(places) {
        *place = held(snapshot, cell)?;
    }
    Ok(Frame {
        function: snapshot.tags[first + OWNER],
        version: snapshot.tags[first + OWNER + 1],
        registers,
        names,
    })
}

/// What a register or a name holds.
fn held(snapshot: &Snapshot, cell: usize) -> Result<Option<Value>, String> {
    let (tag, place) = (snapshot.tags[cell], usize::from(snapshot.places[cell]));
    match tag {
        FIR_NOTHING => Ok(None),
        FIR_IS_INTEGER => Ok(Some(Value::Integer(snapshot.numbers[cell]))),
        FIR_IS_VECTOR if place < VECTORS => Ok(Some(Value::Vector(place))),
        FIR_IS_PROMISE if place < PROMISES => Ok(Some(Value::Promise(place))),
        _ => Err(format!(
            "cell {cell} has the tag {tag} and the place {place}"
        )),
    }
}

/// A live activation.
fn activation(snapshot: &Snapshot, index: usize) -> Result<Activation, String> {
    let first = index * ACTIVATION;
    let [opener, promise, d, frame, block, next, ..] = snapshot.stack[first..first + ACTIVATION]
    else {
        unreachable!("an activation has six numbers");
    };
    let opener = match opener {
        0 => Opener::Call,
        1 if usize::from(promise) < PROMISES => Opener::Force(promise.into()),
        _ => return Err(format!("activation {index} by {opener} of {promise}")),
    };
    Ok(Activation {
        opener,
        d,
        frame: frame.into(),
        block,
        next: next.into(),
    })
}

/// The items of a vector.
fn vector(snapshot: &Snapshot, place: usize) -> Result<Vec<Integer>, String> {
    let (first, length) = (place * ITEMS, usize::from(snapshot.lengths[place]));
    if length > ITEMS {
        return Err(format!("vector {place} of {length} items"));
    }
    Ok(snapshot.items[first..first + length].to_vec())
}

/// A promise.
fn promise(snapshot: &Snapshot, place: usize) -> Result<Promise, String> {
    let first = place * PROMISE;
    let [frame, block, forced, _] = snapshot.promises[first..first + PROMISE] else {
        unreachable!("a promise has four numbers");
    };
    let cache = match forced {
        0 => None,
        1 => Some(snapshot.caches[place]),
        _ => return Err(format!("promise {place} is forced by {forced}")),
    };
    Ok(Promise {
        frame: frame.into(),
        block,
        cache,
    })
}

/// Whether the run goes on.
fn status(snapshot: &Snapshot) -> Result<Status, String> {
    match snapshot.status {
        FIR_STEPS => Ok(Status::Running),
        code => end(code, snapshot.length, snapshot.value).map(Status::Ended),
    }
}

/// A number of live calls or activations, if there can be so many.
fn live(count: u8) -> Result<usize, String> {
    let count = usize::from(count);
    if count <= ACTIVATIONS {
        Ok(count)
    } else {
        Err(format!("{count} live calls or activations"))
    }
}
