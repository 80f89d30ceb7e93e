//! How registers, names, vectors and promises of a state are read and written, and which
//! of them count.

use crate::program::Program;
use crate::state::{
    at, stuck_unless, End, Frame, Halt, Opener, State, Try, Value, ACTIVATIONS, PLACES,
};

/// The kind of an integer and of a vector, and that of a quiet promise; that of a reflective
/// one is one more.
const INTEGER: u16 = 2;
const VECTOR: u16 = 3;
const PROMISE: u16 = 4;

/// "Within": each kind is within itself and 0; 2 and 3 are within 1; 4 is within 5.
pub fn within(kind: u16, wider: u16) -> bool {
    kind == wider
        || wider == 0
        || ((kind == 2 || kind == 3) && wider == 1)
        || (kind == 4 && wider == 5)
}

/// The kind in a type byte.
pub fn kind_of(type_byte: u8) -> u16 {
    (type_byte % 16).into()
}

/// The ownership in a type byte.
pub fn ownership_of(type_byte: u8) -> u8 {
    type_byte / 16
}

/// Is a type byte owned?
pub fn is_owned(type_byte: u8) -> bool {
    ownership_of(type_byte) == 1
}

impl Frame {
    /// The operand of any kind in a register.
    pub fn value(&self, register: u8) -> Try<Value> {
        match *at(&self.registers, register)? {
            Value::Empty => Err(Halt::Stuck),
            value => Ok(value),
        }
    }

    /// The integer in a register.
    pub fn integer(&self, register: u8) -> Try<i64> {
        an_integer(*at(&self.registers, register)?)
    }

    /// The number of the vector in a register.
    pub fn vector(&self, register: u8) -> Try<u8> {
        match *at(&self.registers, register)? {
            Value::Vector(vector) => Ok(vector),
            _ => Err(Halt::Stuck),
        }
    }

    /// The number of the promise in a register.
    pub fn promise(&self, register: u8) -> Try<u8> {
        match *at(&self.registers, register)? {
            Value::Promise(promise) => Ok(promise),
            _ => Err(Halt::Stuck),
        }
    }

    /// The operand in a register that is no promise.
    pub fn plain(&self, register: u8) -> Try<Value> {
        match *at(&self.registers, register)? {
            Value::Empty | Value::Promise(_) => Err(Halt::Stuck),
            value => Ok(value),
        }
    }

    /// What a name holds that is read.
    pub fn name(&self, name: u8) -> Try<Value> {
        match *at(&self.names, name)? {
            Value::Empty => Err(Halt::Stop(End::Undef)),
            Value::Promise(_) => Err(Halt::Stuck),
            value => Ok(value),
        }
    }

    /// Does a register or a name hold the value?
    fn holds(&self, value: Value) -> bool {
        self.registers.contains(&value) || self.names.contains(&value)
    }
}

/// An integer.
pub fn an_integer(value: Value) -> Try<i64> {
    match value {
        Value::Integer(integer) => Ok(integer),
        _ => Err(Halt::Stuck),
    }
}

impl State {
    /// The kind of a value.
    pub fn kind_in(&self, program: Program, value: Value) -> Try<u16> {
        match value {
            Value::Empty => Err(Halt::Stuck),
            Value::Integer(_) => Ok(INTEGER),
            Value::Vector(vector) => at(&self.vectors, vector).map(|_| VECTOR),
            Value::Promise(promise) => {
                let promise = at(&self.promises, promise)?;
                let frame = at(self.live_frames(), promise.frame)?;
                let version = program.version(frame.function.into(), frame.version.into());
                let block = version.ok_or(Halt::Stuck)?.block(promise.block);
                Ok(PROMISE + u16::from(block.ok_or(Halt::Stuck)?.mark()))
            }
        }
    }

    /// The kinds of values.
    pub fn kinds_in(&self, program: Program, values: &[Value]) -> Try<Vec<u16>> {
        let kind = |&value: &Value| self.kind_in(program, value);
        values.iter().map(kind).collect()
    }

    /// Does a register or a name of a live call hold the value?
    fn is_held(&self, value: Value) -> bool {
        self.live_frames().iter().any(|frame| frame.holds(value))
    }

    /// Does a live activation force the promise?
    pub fn is_pending(&self, promise: u8) -> bool {
        let opener = Opener::Force(promise);
        self.live_activations().iter().any(|a| a.opener == opener)
    }

    /// Does the vector count?
    pub fn vector_counts(&self, vector: u8) -> bool {
        self.is_held(Value::Vector(vector))
    }

    /// Does the promise count?
    fn promise_counts(&self, promise: u8) -> bool {
        self.is_held(Value::Promise(promise)) || self.is_pending(promise)
    }

    /// The place of a new vector.
    pub fn free_vector(&self) -> Try<u8> {
        let free = |&place: &u8| !self.vector_counts(place);
        let place = (0..PLACES as u8).find(free);
        place.ok_or(Halt::Stop(End::Vectors))
    }

    /// The place of a new promise.
    pub fn free_promise(&self) -> Try<u8> {
        let free = |&place: &u8| !self.promise_counts(place);
        let place = (0..PLACES as u8).find(free);
        place.ok_or(Halt::Stop(End::Promises))
    }

    /// A live frame, to be written.
    fn live_frame(&mut self, frame: u8) -> Try<&mut Frame> {
        let live = usize::from(self.calls).min(ACTIVATIONS);
        let frame = self.frames[..live].get_mut(usize::from(frame));
        frame.ok_or(Halt::Stuck)
    }

    /// A register of a live frame gets a value.
    pub fn assign(&mut self, frame: u8, register: u8, value: Value) -> Try<()> {
        let registers = &mut self.live_frame(frame)?.registers;
        let place = registers.get_mut(usize::from(register));
        *place.ok_or(Halt::Stuck)? = value;
        Ok(())
    }

    /// A name of a live frame gets a value.
    pub fn store(&mut self, frame: u8, name: u8, value: Value) -> Try<()> {
        let names = &mut self.live_frame(frame)?.names;
        let place = names.get_mut(usize::from(name));
        *place.ok_or(Halt::Stuck)? = value;
        Ok(())
    }

    /// Does nothing else hold the vector that a register of a frame holds?
    pub fn alone(&self, frame: u8, register: u8, vector: u8) -> Try<()> {
        let mut emptied = self.clone();
        emptied.assign(frame, register, Value::Empty)?;
        stuck_unless(!emptied.vector_counts(vector))
    }
}
