//! PROM, with the block it names, and FORCE.

use super::registers::Gives;
use super::Body;
use crate::draft::DraftBlock;
use crate::fact::Fact;
use crate::registers::Registers;
use reference::{Instruction, Kind, Mark, Register, Type};

/// How deep promise blocks may stand in one another.
const NESTING: usize = 3;

impl Body<'_> {
    /// A PROM of a new block.
    pub(super) fn prom(&mut self) -> Option<()> {
        let mark = self
            .random
            .weighted(&[(60, Mark::QUIET), (40, Mark::REFLECTIVE)]);
        let d = self.target(Gives::Plain(mark.promise()))?;
        self.promise_into(d, mark).map(|_| ())
    }

    /// Grows a promise block of a mark, and a PROM of it into d.
    pub(super) fn promise_into(&mut self, d: Register, mark: Mark) -> Option<Register> {
        if self.blocks.len() >= self.wish.blocks || self.nesting() > NESTING {
            return None;
        }
        let length = self.block_length() / 2;
        let block = self.inside_block(d, mark, |body| {
            for _ in 0..length {
                body.attempt();
            }
        });
        let fact = Fact::Promise {
            mark,
            own: true,
            names: 0,
        };
        self.emit(Instruction::Prom { d, block }, fact);
        Some(d)
    }

    /// Opens a promise block, lets it grow, ends it, and comes back; its number.
    pub(super) fn inside_block(
        &mut self,
        d: Register,
        mark: Mark,
        grow: impl FnOnce(&mut Self),
    ) -> u8 {
        let number = self.blocks.len();
        self.blocks.push(DraftBlock {
            mark,
            result: 0,
            instructions: Vec::new(),
        });
        self.parents.push(self.here.block);
        let around = self.here.clone();
        self.here.block = number;
        self.here.assigned = Registers::default();
        self.here.touched = Registers::default();
        // A block that forces its own promise makes UNDEF.
        if !self.random.one_in(30) {
            self.here.readable.remove(d);
        }
        grow(self);
        self.end_promise_block();
        let captured = self.here.captured();
        self.here = around;
        self.captured = self.captured.union(captured);
        self.here.touched = self.here.touched.union(captured);
        self.forget(number);
        number as u8
    }

    /// Expects nothing any more of the registers that a block assigns when it is forced.
    fn forget(&mut self, block: usize) {
        for instruction in &self.blocks[block].instructions {
            if let Some(d) = instruction.destination() {
                let ty = self.types[usize::from(d)];
                self.here.facts[usize::from(d)] = Fact::of_type(ty);
            }
        }
    }

    /// How many promise blocks stand around what grows.
    fn nesting(&self) -> usize {
        let mut block = self.here.block;
        let mut nesting = 0;
        while block > 0 {
            block = self.parents[block];
            nesting += 1;
        }
        nesting
    }

    /// A FORCE that the block's mark covers.
    pub(super) fn force(&mut self) -> Option<()> {
        let kind = match self.reflective() {
            Some(()) => Kind::REFLECTIVE,
            None => Kind::QUIET,
        };
        let known =
            self.operand(|ty: Type| ty.kind().within(Kind::REFLECTIVE) && ty.kind().within(kind));
        let a = match known {
            Some(register) => register,
            None => self.promise(kind)?,
        };
        let d = self.target(Gives::Plain(Kind::INTEGER))?;
        self.emit(Instruction::Force { d, a }, Fact::MODERATE);
        Some(())
    }
}
