//! LIT, MOVE, ARITH, SELECT and CAST.

use super::registers::Gives;
use super::Body;
use crate::ends::{self, Operation};
use crate::fact::Fact;
use reference::{kinds, Instruction, Integer, Kind, Range, Register, Type};

impl Body<'_> {
    /// A literal: mostly small, sometimes at an end of either range.
    pub(super) fn lit(&mut self) -> Option<()> {
        let d = self.target(Gives::Plain(Kind::INTEGER))?;
        let value = match self.random.below(20) {
            0 => ends::integer(self.random),
            1..=3 => self.random.between(-100_000, 100_000),
            4..=8 => self.random.between(-100, 100),
            _ => self.random.between(-2, 9),
        };
        self.emit(Instruction::Lit { d, value }, Fact::exactly(value));
        Some(())
    }

    /// A MOVE of any shared register.
    pub(super) fn move_(&mut self) -> Option<()> {
        let a = self.operand(Type::is_shared)?;
        let d = self.target(Gives::Plain(self.type_of(a).kind()))?;
        self.emit(Instruction::Move { d, a }, self.fact(a));
        Some(())
    }

    /// An operation that is expected to stay in range.
    pub(super) fn arith(&mut self) -> Option<()> {
        match self.random.below(12) {
            0 | 1 => return self.division(),
            2 => return self.at_an_end(),
            _ => {}
        }
        let (a, b) = (self.integer()?, self.integer()?);
        let op = self.random.pick(&[
            kinds::ADD,
            kinds::ADD,
            kinds::SUBTRACT,
            kinds::SUBTRACT,
            kinds::MULTIPLY,
            kinds::DIVIDE,
            kinds::LESS,
        ]);
        let risky = self.random.one_in(60);
        let (op, b) = match outcome(op, self.fact(a), self.fact(b)) {
            Some(_) => (op, b),
            None if risky => (op, b),
            None if op == kinds::DIVIDE => {
                let (low, high) = self.random.pick(&[(1, 9), (-9, -2)]);
                (op, self.integer_between(low, high)?)
            }
            None => (kinds::LESS, b),
        };
        let d = self.target(Gives::Plain(Kind::INTEGER))?;
        let fact = outcome(op, self.fact(a), self.fact(b)).unwrap_or(Fact::MODERATE);
        self.emit(Instruction::Arith { d, op, a, b }, fact);
        Some(())
    }

    /// An operation on literals whose result is the last to fit either range, or
    /// the first past the narrow one.
    fn at_an_end(&mut self) -> Option<()> {
        let (narrow, wide) = (Range::NARROW, Range::WIDE);
        let (range, fits) = self
            .random
            .pick(&[(narrow, true), (narrow, false), (wide, true)]);
        let operation = ends::operation(self.random, range, fits);
        self.operation(operation)
    }

    /// An operation on two literals.
    pub(super) fn operation(&mut self, Operation { op, a, b }: Operation) -> Option<()> {
        let expected = outcome(op, Fact::exactly(a), Fact::exactly(b));
        let (a, b) = (self.literal(a)?, self.literal(b)?);
        let d = self.target(Gives::Plain(Kind::INTEGER))?;
        let fact = expected.unwrap_or(Fact::MODERATE);
        self.emit(Instruction::Arith { d, op, a, b }, fact);
        Some(())
    }

    /// A division of literals of both signs, exact or not, some at an end of either range.
    fn division(&mut self) -> Option<()> {
        let divisor = self.random.between(1, 9);
        let ends = [ends::integer(self.random), ends::integer(self.random)];
        let b = match self.random.below(8) {
            0 => ends[0],
            1 => self.random.pick(&[1, -1]),
            _ => self.random.pick(&[divisor, -divisor]),
        };
        let exact = b.signum() * self.random.between(-9, 9) * divisor;
        let any = self.random.between(-100, 100);
        let a = match self.random.below(8) {
            0 => ends[1],
            1..=3 => exact,
            _ => any,
        };
        let toward_zero = a.checked_div(b)?;
        let quotient = toward_zero - Integer::from(a % b != 0 && (a < 0) != (b < 0));
        let (a, b) = (self.literal(a)?, self.literal(b)?);
        let d = self.target(Gives::Plain(Kind::INTEGER))?;
        let op = kinds::DIVIDE;
        let fact = Fact::exactly(quotient);
        self.emit(Instruction::Arith { d, op, a, b }, fact);
        Some(())
    }

    /// A SELECT of any integers.
    pub(super) fn select(&mut self) -> Option<()> {
        let (c, a, b) = (self.integer()?, self.integer()?, self.integer()?);
        let d = self.target(Gives::Plain(Kind::INTEGER))?;
        let fact = self.fact(a).or(self.fact(b));
        self.emit(Instruction::Select { d, c, a, b }, fact);
        Some(())
    }

    /// A cast that is expected to succeed, and is worth it if it can be.
    pub(super) fn cast(&mut self) -> Option<()> {
        let wide = self.readable(|ty| ty == Type::ANY || ty == Type::VALUE);
        let known = |r: &Register| self.fact(*r).kind().is_some();
        let wide: Vec<Register> = wide.into_iter().filter(known).collect();
        let a = match self.random.choose(&wide) {
            Some(register) => register,
            None => self.operand(Type::is_shared)?,
        };
        let expected = self.fact(a).kind().unwrap_or(self.type_of(a).kind());
        let d = if self.random.one_in(60) {
            let kind = self.random.pick(&Kind::ALL);
            self.target(Gives::Plain(kind))?
        } else {
            self.target(Gives::Plain(expected))?
        };
        self.emit(Instruction::Cast { d, a }, self.fact(a));
        Some(())
    }
}

/// What an operation is expected to give; none if it may be out of range.
fn outcome(op: u8, a: Fact, b: Fact) -> Option<Fact> {
    let exact = |(low, high)| (i128::from(low), i128::from(high));
    let ((al, ah), (bl, bh)) = (exact(a.range()), exact(b.range()));
    let (low, high) = match op {
        kinds::ADD => (al + bl, ah + bh),
        kinds::SUBTRACT => (al - bh, ah - bl),
        kinds::MULTIPLY => {
            let products = [al * bl, al * bh, ah * bl, ah * bh];
            let low = products.iter().copied().min()?;
            (low, products.into_iter().max()?)
        }
        kinds::DIVIDE if bl > 0 => (al.min(0), ah.max(0)),
        kinds::DIVIDE if bh < 0 => {
            let most = al.abs().max(ah.abs());
            (-most, most)
        }
        kinds::DIVIDE => return None,
        _ => (0, 1),
    };
    let (low, high) = (low.try_into().ok()?, high.try_into().ok()?);
    Some(Fact::Integer { low, high })
}
