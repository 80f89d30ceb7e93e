//! Which registers an instruction may read and assign, and how one is come by.

use super::Body;
use crate::fact::Fact;
use reference::{Instruction, Kind, Mark, Register, Type};

/// What an instruction puts into its d.
#[derive(Clone, Copy)]
pub(super) enum Gives {
    /// A result of this kind that is no fresh vector.
    Plain(Kind),
    /// A vector that nothing else holds.
    Fresh,
}

impl Gives {
    /// What a call of this return type gives.
    pub(super) fn of_return(returns: Type) -> Gives {
        if returns.is_owned() {
            Gives::Fresh
        } else {
            Gives::Plain(returns.kind())
        }
    }

    /// May a register of this type take it?
    fn enters(self, ty: Type) -> bool {
        match self {
            Gives::Plain(kind) => ty.is_shared() && kind.within(ty.kind()),
            Gives::Fresh => ty.is_owned() || (ty.is_shared() && Kind::VECTOR.within(ty.kind())),
        }
    }

    /// The types of a new register for it, by how often they are wanted.
    fn new_types(self) -> Vec<(usize, Type)> {
        match self {
            Gives::Plain(kind) => {
                let types = Kind::ALL.map(Type::shared).into_iter();
                let weight = |ty: Type| if ty.kind() == kind { 6 } else { 1 };
                types
                    .filter(|&ty| self.enters(ty))
                    .map(|ty| (weight(ty), ty))
                    .collect()
            }
            Gives::Fresh => vec![
                (6, Type::OWNED),
                (2, Type::VECTOR),
                (1, Type::VALUE),
                (1, Type::ANY),
            ],
        }
    }
}

impl Body<'_> {
    /// The registers of a type that passes which may be read here.
    pub(super) fn readable(&self, passes: impl Fn(Type) -> bool) -> Vec<Register> {
        let readable = self.here.readable.iter();
        readable.filter(|&r| passes(self.type_of(r))).collect()
    }

    /// A register that may be read here.
    pub(super) fn operand(&mut self, passes: impl Fn(Type) -> bool) -> Option<Register> {
        let readable = self.readable(passes);
        self.random.choose(&readable)
    }

    /// A new register of a type, if the version may have one more.
    pub(super) fn new_register(&mut self, ty: Type) -> Option<Register> {
        if self.types.len() >= self.wish.registers {
            return None;
        }
        self.types.push(ty);
        Some(self.types.len() as Register - 1)
    }

    /// A register that may take a result: an emptied one, a known one, or a new one.
    pub(super) fn target(&mut self, gives: Gives) -> Option<Register> {
        let known = self.targets(gives);
        let emptied = known.iter().copied().filter(|&r| self.emptied.contains(r));
        let emptied: Vec<Register> = emptied.collect();
        if !emptied.is_empty() && self.random.one_in(2) {
            return self.random.choose(&emptied);
        }
        if known.is_empty() || self.random.percent(35) {
            let ty = self.random.weighted(&gives.new_types());
            if let Some(register) = self.new_register(ty) {
                return Some(register);
            }
        }
        self.random.choose(&known)
    }

    /// The known registers that may take a result; in a promise block none that
    /// its body emptied.
    pub(super) fn targets(&self, gives: Gives) -> Vec<Register> {
        let registers = 0..self.types.len() as Register;
        let free = |r: &Register| !(self.in_promise() && self.emptied.contains(*r));
        registers
            .filter(|r| free(r) && gives.enters(self.type_of(*r)))
            .collect()
    }

    /// An integer register, made if need be.
    pub(super) fn integer(&mut self) -> Option<Register> {
        match self.operand(|ty| ty == Type::INTEGER) {
            Some(register) => Some(register),
            None => {
                let value = self.random.between(0, 9);
                self.literal(value)
            }
        }
    }

    /// An integer register that is expected to hold a number of the range.
    pub(super) fn integer_between(&mut self, low: i64, high: i64) -> Option<Register> {
        let known = self.readable(|ty| ty == Type::INTEGER).into_iter();
        let in_range = |r: &Register| {
            let (least, greatest) = self.fact(*r).range();
            low <= least && greatest <= high
        };
        let known: Vec<Register> = known.filter(in_range).collect();
        match self.random.choose(&known) {
            Some(register) => Some(register),
            None => {
                let value = self.random.between(low, high);
                self.literal(value)
            }
        }
    }

    /// An integer register that takes a literal.
    pub(super) fn literal(&mut self, value: i64) -> Option<Register> {
        self.room()?;
        let mut targets = self.targets(Gives::Plain(Kind::INTEGER));
        targets.retain(|&r| self.type_of(r) == Type::INTEGER);
        let new = self.new_register(Type::INTEGER);
        let d = new.or_else(|| self.random.choose(&targets))?;
        self.emit(Instruction::Lit { d, value }, Fact::exactly(value));
        Some(d)
    }

    /// A vector register of any ownership that passes, made if need be.
    pub(super) fn vector(&mut self, passes: impl Fn(Register) -> bool) -> Option<Register> {
        let mut known = self.readable(|ty| ty.kind() == Kind::VECTOR);
        known.retain(|&r| passes(r));
        match self.random.choose(&known) {
            Some(register) => Some(register),
            None => {
                let ty = self.random.pick(&[Type::OWNED, Type::VECTOR]);
                let d = self.new_register(ty)?;
                self.fill(d)
            }
        }
    }

    /// The owned registers that may be emptied here.
    pub(super) fn emptiable(&self) -> Vec<Register> {
        let mut owned = self.readable(Type::is_owned);
        owned.retain(|&r| !self.captured.contains(r) && !self.kept.contains(r));
        owned
    }

    /// An owned register that may be emptied here and is none of these, made if need be.
    pub(super) fn owned(&mut self, other_than: &[Register]) -> Option<Register> {
        let mut known = self.emptiable();
        known.retain(|r| !other_than.contains(r));
        match self.random.choose(&known) {
            Some(register) => Some(register),
            None => {
                let d = self.new_register(Type::OWNED)?;
                self.fill(d)
            }
        }
    }

    /// Puts a new vector into a register.
    pub(super) fn fill(&mut self, d: Register) -> Option<Register> {
        self.room()?;
        let integers = self.readable(|ty| ty == Type::INTEGER);
        let length = if integers.is_empty() {
            0
        } else {
            self.random.below(reference::bounds::LISTED + 1)
        };
        let items = (0..length).map(|_| self.random.pick(&integers)).collect();
        self.emit(Instruction::Vec { d, items }, Fact::Vector { length });
        Some(d)
    }

    /// A promise register within a kind, made if need be.
    pub(super) fn promise(&mut self, kind: Kind) -> Option<Register> {
        let known =
            self.readable(|ty| ty.kind().within(Kind::REFLECTIVE) && ty.kind().within(kind));
        if let Some(register) = self.random.choose(&known) {
            return Some(register);
        }
        let mark = if kind == Kind::QUIET {
            Mark::QUIET
        } else {
            self.random.pick(&[Mark::QUIET, Mark::REFLECTIVE])
        };
        self.room()?;
        let d = self.new_register(Type::shared(mark.promise()))?;
        self.promise_into(d, mark)
    }

    /// A shared register within a kind, made if need be.
    pub(super) fn shared(&mut self, kind: Kind) -> Option<Register> {
        if let Some(register) = self.operand(|ty| ty.is_shared() && ty.kind().within(kind)) {
            return Some(register);
        }
        match kind {
            Kind::VECTOR => {
                let d = self.new_register(Type::VECTOR)?;
                self.fill(d)
            }
            Kind::QUIET | Kind::REFLECTIVE => self.promise(kind),
            _ => self.integer(),
        }
    }
}
