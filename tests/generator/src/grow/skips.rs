//! SKIP, with the part that it passes over.

use super::{Body, Here};
use reference::{kinds, Instruction, Register};

/// How deep skipped parts may stand in one another.
const NESTING: usize = 5;

impl Body<'_> {
    /// A SKIP, and the part behind it; sometimes a part that ends with another.
    pub(super) fn skip(&mut self) -> Option<()> {
        if self.here.parts >= NESTING {
            return None;
        }
        let a = self.condition()?;
        self.room()?;
        let block = self.here.block;
        let place = self.blocks[block].instructions.len();
        let fact = self.fact(a);
        self.emit(Instruction::Skip { a, n: 0 }, fact);
        let (past, emptied) = (self.here.clone(), self.emptied);
        self.here.parts += 1;
        self.grow_part();
        let instructions = &mut self.blocks[block].instructions;
        let n = (instructions.len() - place - 1) as u8;
        instructions[place] = Instruction::Skip { a, n };
        self.here.join(&past);
        self.emptied = self.emptied.union(emptied);
        Some(())
    }

    /// The instructions of a part, if any.
    fn grow_part(&mut self) {
        for _ in 0..self.random.pick(&[0, 1, 1, 2, 2, 3, 4, 6]) {
            self.attempt();
        }
        if self.random.one_in(4) {
            self.skip();
        }
    }

    /// An integer that is 0 in about half of the runs.
    fn condition(&mut self) -> Option<Register> {
        match self.random.below(5) {
            0 => self.literal(0),
            1 => {
                let value = self.random.pick(&[1, -1, 7]);
                self.literal(value)
            }
            2 | 3 => {
                let (a, b, d) = (self.integer()?, self.integer()?, self.literal(0)?);
                let op = kinds::LESS;
                let fact = super::Fact::Integer { low: 0, high: 1 };
                self.room()?;
                self.emit(Instruction::Arith { d, op, a, b }, fact);
                Some(d)
            }
            _ => self.integer(),
        }
    }
}

impl Here {
    /// Joins the way that a SKIP takes past a part with the way through it.
    fn join(&mut self, past: &Here) {
        self.parts = past.parts;
        self.readable = self.readable.intersection(past.readable);
        self.assigned = self.assigned.intersection(past.assigned);
        self.touched = self.touched.union(past.touched);
        for (fact, &other) in self.facts.iter_mut().zip(&past.facts) {
            *fact = fact.or(other);
        }
        for (name, &other) in self.names.iter_mut().zip(&past.names) {
            *name = match (*name, other) {
                (Some(fact), Some(other)) => Some(fact.or(other)),
                _ => None,
            };
        }
    }
}
