//! Result registers, and the finished version.

use super::{Body, Grown, RESERVE};
use crate::draft::{DraftBlock, DraftVersion};
use crate::fact::Fact;
use crate::random::Random;
use crate::world::Callable;
use reference::{Instruction, Kind, Register, Type};

impl Body<'_> {
    /// Sees to it that the body can always make an integer, and its result.
    pub(super) fn provide_result(&mut self) {
        if !self.types.contains(&Type::INTEGER) {
            self.types.push(Type::INTEGER);
        }
        let returns = self.wish.signature.returns;
        if returns.kind() == Kind::VECTOR {
            let ty = if returns.is_owned() || self.random.percent(50) {
                Type::OWNED
            } else {
                Type::VECTOR
            };
            self.types.push(ty);
            self.kept.insert(self.types.len() as Register - 1);
        }
    }

    /// Chooses the result register of the body, and assigns it if need be.
    pub(super) fn end_body(&mut self) {
        let returns = self.wish.signature.returns;
        let fits = |ty: Type| {
            ty.kind().within(returns.kind())
                && (ty.is_owned() || (ty.is_shared() && !returns.is_owned()))
        };
        let known = self.readable(fits);
        let result = match self.random.choose(&known) {
            Some(register) => register,
            None if returns.kind() == Kind::VECTOR => self.make_kept_vector(),
            None => self.make_integer(),
        };
        self.blocks[0].result = result;
        self.cost += 1;
    }

    /// Chooses the result register of a promise block, and assigns it if need be.
    pub(super) fn end_promise_block(&mut self) {
        let known = self.readable(|ty| ty == Type::INTEGER);
        let captured = self.here.captured();
        let touched = known.iter().copied().filter(|&r| captured.contains(r));
        let touched: Vec<Register> = touched.collect();
        let result = self.random.choose(&touched);
        let result = result.or_else(|| self.random.choose(&known));
        let result = result.unwrap_or_else(|| self.make_integer());
        let block = self.here.block;
        self.blocks[block].result = result;
        self.here.read(result);
        self.cost += 1;
    }

    /// A literal in the first integer register, from the room that is kept for it.
    fn make_integer(&mut self) -> Register {
        let d = self.types.iter().position(|&ty| ty == Type::INTEGER);
        let d = d.expect("an integer register was provided") as Register;
        let value = self.random.between(-9, 9);
        self.emit(Instruction::Lit { d, value }, Fact::exactly(value));
        d
    }

    /// A vector in the register that is kept for the result.
    fn make_kept_vector(&mut self) -> Register {
        let d = self.kept.iter().next().expect("a vector was provided");
        let integers = self.readable(|ty| ty == Type::INTEGER);
        let items = match self.random.choose(&integers) {
            Some(register) => vec![register; self.random.below(RESERVE)],
            None => vec![],
        };
        let length = items.len();
        self.emit(Instruction::Vec { d, items }, Fact::Vector { length });
        d
    }

    /// The version, its promise blocks in any order that PROM allows.
    pub(super) fn finish(self) -> Grown {
        let result = self.fact(self.blocks[0].result);
        let order = block_order(self.random, &self.parents);
        let wish = self.wish;
        let callable = Callable {
            function: wish.function,
            version: wish.version,
            signature: wish.signature.clone(),
            level: wish.level,
            cost: self.cost,
            gives: result,
        };
        let draft = DraftVersion {
            function: wish.function,
            version: wish.version,
            parameters: wish.signature.parameters.len(),
            returns: wish.signature.returns,
            types: self.types,
            level: wish.level,
            blocks: reordered(self.blocks, &order),
        };
        Grown { draft, callable }
    }
}

/// An order of blocks in which each stands after the one that makes its promise.
fn block_order(random: &mut Random, parents: &[usize]) -> Vec<usize> {
    let mut order = vec![0];
    while order.len() < parents.len() {
        let blocks = 1..parents.len();
        let next = blocks.filter(|b| !order.contains(b) && order.contains(&parents[*b]));
        let next: Vec<usize> = next.collect();
        order.push(random.pick(&next));
    }
    order
}

/// The blocks in an order, the PROMs renumbered with them.
fn reordered(mut blocks: Vec<DraftBlock>, order: &[usize]) -> Vec<DraftBlock> {
    for placed in blocks.iter_mut().flat_map(|b| &mut b.instructions) {
        if let Instruction::Prom { block, .. } = placed {
            let old = usize::from(*block);
            let new = order.iter().position(|&b| b == old);
            *block = new.expect("each block has its place") as u8;
        }
    }
    order.iter().map(|&old| blocks[old].clone()).collect()
}
