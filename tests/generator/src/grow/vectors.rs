//! USE, DUP, VEC, LEN, GET and SET.

use super::registers::Gives;
use super::Body;
use crate::fact::Fact;
use reference::{Instruction, Kind, Register};

impl Body<'_> {
    /// A USE of an owned register that nothing captured, in a body; sometimes a
    /// chain of them, which hands the vector on and back.
    pub(super) fn use_(&mut self) -> Option<()> {
        if self.in_promise() {
            return None;
        }
        let emptiable = self.emptiable();
        let mut a = self.random.choose(&emptiable)?;
        for _ in 0..self.random.pick(&[1, 1, 1, 2, 3, 5]) {
            self.room()?;
            let d = self.target(Gives::Fresh)?;
            self.emit_emptying(Instruction::Use { d, a }, &[a], self.fact(a));
            if !self.emptiable().contains(&d) {
                break;
            }
            a = d;
        }
        Some(())
    }

    /// A DUP of any vector.
    pub(super) fn dup(&mut self) -> Option<()> {
        let a = self.vector(|_| true)?;
        let d = self.target(Gives::Fresh)?;
        self.emit(Instruction::Dup { d, a }, self.fact(a));
        Some(())
    }

    /// A VEC of any integers.
    pub(super) fn vec(&mut self) -> Option<()> {
        let d = self.target(Gives::Fresh)?;
        self.fill(d).map(|_| ())
    }

    /// A LEN of any vector.
    pub(super) fn len(&mut self) -> Option<()> {
        let a = self.vector(|_| true)?;
        let d = self.target(Gives::Plain(Kind::INTEGER))?;
        let fact = Fact::Integer { low: 0, high: 16 };
        self.emit(Instruction::Len { d, a }, fact);
        Some(())
    }

    /// A GET that is expected to be inside.
    pub(super) fn get(&mut self) -> Option<()> {
        let vectors = self.readable(|ty| ty.kind() == Kind::VECTOR);
        let (a, i) = self.item(&vectors)?;
        let d = self.target(Gives::Plain(Kind::INTEGER))?;
        self.emit(Instruction::Get { d, a, i }, Fact::MODERATE);
        Some(())
    }

    /// A SET that is expected to be inside, in a body.
    pub(super) fn set(&mut self) -> Option<()> {
        if self.in_promise() {
            return None;
        }
        let owned = self.readable(|ty| ty.is_owned());
        let (a, i) = self.item(&owned)?;
        let e = self.integer()?;
        self.emit(Instruction::Set { a, i, e }, Fact::Unknown);
        Some(())
    }

    /// One of the vectors and a register for an index that is expected to be inside.
    fn item(&mut self, vectors: &[Register]) -> Option<(Register, Register)> {
        let a = self.random.choose(vectors)?;
        let length = match self.fact(a) {
            Fact::Vector { length } => length as i64,
            _ => 0,
        };
        let i = if length > 0 {
            self.integer_between(0, length - 1)?
        } else if self.random.one_in(25) {
            self.integer()?
        } else {
            return None;
        };
        Some((a, i))
    }
}
