//! Instructions that make UNDEF, one way for each cause.

use super::registers::Gives;
use super::Body;
use crate::ends::{self, Operation};
use crate::fact::Fact;
use reference::{kinds, Instruction, Integer, Kind, Mark, Name, Range, Register, Type};

/// A cause of UNDEF.
#[derive(Clone, Copy, PartialEq, Eq, Debug)]
pub enum Trap {
    /// An operation whose result just does not fit.
    Range,
    /// A division by 0.
    DivideByZero,
    /// The least integer divided by −1.
    DivideLeast,
    /// A GET outside its vector.
    GetOutside,
    /// A SET outside its vector.
    SetOutside,
    /// A CAST that fails.
    Cast,
    /// A NAMED of an unset name.
    UnsetName,
    /// A PEEK of an unset name.
    UnsetPeek,
    /// A force of a promise being forced.
    BeingForced,
    /// A DISPATCH that no version fits.
    NoFit,
}

impl Trap {
    /// All causes.
    pub const ALL: [Trap; 10] = [
        Trap::Range,
        Trap::DivideByZero,
        Trap::DivideLeast,
        Trap::GetOutside,
        Trap::SetOutside,
        Trap::Cast,
        Trap::UnsetName,
        Trap::UnsetPeek,
        Trap::BeingForced,
        Trap::NoFit,
    ];
}

impl Body<'_> {
    /// Adds instructions that make UNDEF by the cause, if they find room.
    pub(super) fn trap(&mut self, trap: Trap) -> Option<()> {
        match trap {
            Trap::Range => {
                let operation = ends::operation(self.random, Range::WIDE, false);
                self.operation(operation)
            }
            Trap::DivideByZero => self.trap_division(7, 0),
            Trap::DivideLeast => self.trap_division(Integer::MIN, -1),
            Trap::GetOutside => self.trap_item(false),
            Trap::SetOutside => self.trap_item(true),
            Trap::Cast => self.trap_cast(),
            Trap::UnsetName => self.trap_named(),
            Trap::UnsetPeek => self.trap_peek(),
            Trap::BeingForced => self.trap_force(),
            Trap::NoFit => self.misfit(),
        }
    }

    /// A division of two literals.
    fn trap_division(&mut self, a: Integer, b: Integer) -> Option<()> {
        let op = kinds::DIVIDE;
        self.operation(Operation { op, a, b })
    }

    /// A GET or SET at an index that no vector has.
    fn trap_item(&mut self, set: bool) -> Option<()> {
        let a = self.owned(&[])?;
        let low_bits_inside = 1 << 32;
        let end = ends::integer(self.random);
        let outside = self.random.pick(&[-1, 16, low_bits_inside, end]);
        let i = self.literal(outside)?;
        let instruction = if set {
            Instruction::Set { a, i, e: i }
        } else {
            let d = self.target(Gives::Plain(Kind::INTEGER))?;
            Instruction::Get { d, a, i }
        };
        self.emit(instruction, Fact::MODERATE);
        Some(())
    }

    /// A CAST of an integer to another kind.
    fn trap_cast(&mut self) -> Option<()> {
        let a = self.integer()?;
        let kind = self.random.pick(&[Kind::VECTOR, Kind::QUIET]);
        let d = self.exactly(Type::shared(kind))?;
        self.emit(Instruction::Cast { d, a }, Fact::Unknown);
        Some(())
    }

    /// A NAMED of a name that is not set.
    fn trap_named(&mut self) -> Option<()> {
        let x = self.unset_name()?;
        let d = self.target(Gives::Plain(Kind::VALUE))?;
        self.emit(Instruction::Named { d, x }, Fact::Unknown);
        Some(())
    }

    /// A PEEK, on the own frame, of a name that is not set.
    fn trap_peek(&mut self) -> Option<()> {
        self.reflective()?;
        let d = self.new_register(Type::shared(Kind::QUIET))?;
        let block = self.trivial_block(d)?;
        self.emit(Instruction::Prom { d, block }, Fact::Unknown);
        let (a, x) = (d, self.unset_name()?);
        let d = self.target(Gives::Plain(Kind::VALUE))?;
        self.emit(Instruction::Peek { d, a, x }, Fact::Unknown);
        Some(())
    }

    /// A promise whose block forces the register that the promise is put into.
    fn trap_force(&mut self) -> Option<()> {
        let a = self.new_register(Type::shared(Kind::QUIET))?;
        let d = self.literal(1)?;
        let block = self.trivial_block(a)?;
        self.emit(Instruction::Prom { d: a, block }, Fact::Unknown);
        if self.blocks.len() >= self.wish.blocks {
            return None;
        }
        let block = self.inside_block(d, Mark::QUIET, |body| {
            body.emit(Instruction::Force { d, a }, Fact::MODERATE);
        });
        self.emit(Instruction::Prom { d: a, block }, Fact::Unknown);
        self.emit(Instruction::Force { d, a }, Fact::MODERATE);
        Some(())
    }

    /// A promise block without an instruction.
    fn trivial_block(&mut self, d: Register) -> Option<u8> {
        if self.blocks.len() >= self.wish.blocks {
            return None;
        }
        Some(self.inside_block(d, Mark::QUIET, |_| ()))
    }

    /// A register of exactly this type that may be assigned.
    fn exactly(&mut self, ty: Type) -> Option<Register> {
        let mut known = self.targets(Gives::Plain(ty.kind()));
        known.retain(|&r| self.type_of(r) == ty);
        match self.random.choose(&known) {
            Some(register) => Some(register),
            None => self.new_register(ty),
        }
    }

    /// A name that is not set.
    fn unset_name(&mut self) -> Option<Name> {
        let names = self.here.names.iter().enumerate();
        let unset = names.filter(|(_, name)| name.is_none());
        let unset: Vec<Name> = unset.map(|(x, _)| x as Name).collect();
        self.random.choose(&unset)
    }
}
