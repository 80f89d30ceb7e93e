//! The rules of USE, DUP, VEC, LEN, GET and SET.

use super::{Halt, Step, UNDEF};
use crate::bounds::Integer;
use crate::instruction::Register;
use crate::state::{End, State, Value};

impl State {
    /// USE: the same vector, its old register emptied.
    pub(super) fn take(&mut self, d: Register, a: Register, vector: Value) -> Step {
        self.own_frame().registers[usize::from(a)] = None;
        self.assign(d, vector)
    }

    /// DUP: a new vector with the same items.
    pub(super) fn duplicate(&mut self, d: Register, place: usize) -> Step {
        self.fresh(d, self.vector_at(place).clone())
    }

    /// VEC: a new vector of integers.
    pub(super) fn make_vector(&mut self, d: Register, items: &[Value]) -> Step {
        let integer = |item: &Value| match *item {
            Value::Integer(integer) => Ok(integer),
            _ => Err(Halt::Stuck),
        };
        let items = items.iter().map(integer).collect::<Result<_, _>>()?;
        self.fresh(d, items)
    }

    /// LEN: how many items a vector has.
    pub(super) fn length(&mut self, d: Register, place: usize) -> Step {
        let length = self.vector_at(place).len();
        let length = Integer::try_from(length).map_err(|_| UNDEF)?;
        self.assign(d, Value::Integer(length))
    }

    /// GET: UNDEF if the index is outside.
    pub(super) fn get(&mut self, d: Register, place: usize, index: Integer) -> Step {
        let index = self.index(place, index).ok_or(UNDEF)?;
        let item = self.vector_at(place)[index];
        self.assign(d, Value::Integer(item))
    }

    /// SET: stuck if another register or name holds the vector, UNDEF if the
    /// index is outside.
    pub(super) fn set(&mut self, place: usize, index: Integer, item: Integer) -> Step {
        let holders = self.held().filter(|&v| v == Value::Vector(place)).count();
        if holders != 1 {
            return Err(Halt::Stuck);
        }
        let index = self.index(place, index).ok_or(UNDEF)?;
        let vector = self.vectors[place].as_mut().ok_or(Halt::Stuck)?;
        vector[index] = item;
        self.pass(1);
        Ok(())
    }

    /// The index as a position in the vector; none if it is outside.
    fn index(&self, place: usize, index: Integer) -> Option<usize> {
        let position = usize::try_from(index).ok()?;
        (position < self.vector_at(place).len()).then_some(position)
    }

    /// The vector at a place that an operand refers to.
    pub(super) fn vector_at(&self, place: usize) -> &Vec<Integer> {
        self.vectors[place].as_ref().expect("a vector referred to")
    }

    /// Puts a new vector into d; VECTORS while 64 count, d's old one among them.
    fn fresh(&mut self, d: Register, items: Vec<Integer>) -> Step {
        let place = self.free_vector().ok_or(Halt::Ends(End::Vectors))?;
        self.vectors[place] = Some(items);
        self.assign(d, Value::Vector(place))
    }
}
