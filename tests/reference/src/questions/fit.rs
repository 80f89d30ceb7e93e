//! Question 8, "Types fit when": what each instruction needs and gives.

use crate::instruction::{Instruction, Register};
use crate::program::{Block, Program, Version};
use crate::types::{Kind, Ownership, Type};

/// What an operand must be: a kind to lie within, and an ownership unless any will do.
#[derive(Clone, Copy, PartialEq, Eq, Debug)]
pub struct Need {
    /// The operand lies within this kind.
    pub kind: Kind,
    /// The ownership its register must have.
    pub ownership: Option<Ownership>,
}

impl Need {
    /// An integer, an item, an index, an operand of ARITH, SELECT or SKIP.
    const INTEGER: Need = Need::any_ownership(Kind::INTEGER);
    /// Any vector.
    const VECTOR: Need = Need::any_ownership(Kind::VECTOR);
    /// An owned vector.
    const OWNED: Need = Need::with(Kind::VECTOR, Ownership::OWNED);
    /// Kind 4 or 5, which are those within 5.
    const PROMISE: Need = Need::any_ownership(Kind::REFLECTIVE);
    /// A shared source within kind 1.
    const VALUE: Need = Need::with(Kind::VALUE, Ownership::SHARED);

    const fn any_ownership(kind: Kind) -> Need {
        let ownership = None;
        Need { kind, ownership }
    }

    const fn with(kind: Kind, ownership: Ownership) -> Need {
        let ownership = Some(ownership);
        Need { kind, ownership }
    }

    /// A shared parameter takes a shared register within its kind, an owned one
    /// an owned register, a borrowed one any vector register.
    fn of_parameter(parameter: Type) -> Need {
        if parameter.is_borrowed() {
            Need::VECTOR
        } else {
            Need::with(parameter.kind(), parameter.ownership())
        }
    }

    /// Does a register of this type meet the need?
    pub fn met_by(self, ty: Type) -> bool {
        ty.kind().within(self.kind) && self.ownership.is_none_or(|needed| ty.ownership() == needed)
    }
}

/// What the operands must be, in the order of [`Instruction::reads`].
pub fn needs(program: &Program, version: &Version, instruction: &Instruction) -> Vec<Need> {
    match *instruction {
        Instruction::Lit { .. } => vec![],
        Instruction::Move { d, .. } => {
            vec![Need::with(version.type_of(d).kind(), Ownership::SHARED)]
        }
        Instruction::Use { .. } => vec![Need::OWNED],
        Instruction::Dup { .. } => vec![Need::VECTOR],
        Instruction::Vec { ref items, .. } => vec![Need::INTEGER; items.len()],
        Instruction::Len { .. } => vec![Need::VECTOR],
        Instruction::Get { .. } => vec![Need::VECTOR, Need::INTEGER],
        Instruction::Set { .. } => vec![Need::OWNED, Need::INTEGER, Need::INTEGER],
        Instruction::Arith { .. } => vec![Need::INTEGER; 2],
        Instruction::Select { .. } => vec![Need::INTEGER; 3],
        Instruction::Cast { .. } => vec![Need::with(Kind::ANY, Ownership::SHARED)],
        Instruction::Named { .. } => vec![],
        Instruction::Store { .. } => vec![Need::VALUE],
        Instruction::Prom { .. } => vec![],
        Instruction::Force { .. } => vec![Need::PROMISE],
        Instruction::Peek { .. } => vec![Need::PROMISE],
        Instruction::Poke { .. } => vec![Need::PROMISE, Need::VALUE],
        Instruction::Call { .. } | Instruction::Dispatch { .. } => {
            let parameters = program.signature(instruction).map(|s| s.parameters);
            let parameters = parameters.unwrap_or_default().into_iter();
            parameters.map(Need::of_parameter).collect()
        }
        Instruction::Skip { .. } => vec![Need::INTEGER],
    }
}

/// What an instruction puts into its d.
#[derive(Clone, Copy, PartialEq, Eq, Debug)]
pub enum Gives {
    /// A result of this kind that is no fresh vector.
    Plain(Kind),
    /// A vector that nothing else holds.
    Fresh,
}

/// What the instruction gives; none for one without a d, and for one that names
/// a block or a version that does not exist.
pub fn gives(program: &Program, version: &Version, instruction: &Instruction) -> Option<Gives> {
    match *instruction {
        Instruction::Lit { .. } => Some(Gives::Plain(Kind::INTEGER)),
        Instruction::Move { a, .. } => Some(Gives::Plain(version.type_of(a).kind())),
        Instruction::Use { .. } => Some(Gives::Fresh),
        Instruction::Dup { .. } => Some(Gives::Fresh),
        Instruction::Vec { .. } => Some(Gives::Fresh),
        Instruction::Len { .. } => Some(Gives::Plain(Kind::INTEGER)),
        Instruction::Get { .. } => Some(Gives::Plain(Kind::INTEGER)),
        Instruction::Set { .. } => None,
        Instruction::Arith { .. } => Some(Gives::Plain(Kind::INTEGER)),
        Instruction::Select { .. } => Some(Gives::Plain(Kind::INTEGER)),
        Instruction::Cast { d, .. } => Some(Gives::Plain(version.type_of(d).kind())),
        Instruction::Named { .. } => Some(Gives::Plain(Kind::VALUE)),
        Instruction::Store { .. } => None,
        Instruction::Prom { block, .. } => {
            let block = version.blocks.get(usize::from(block))?;
            Some(Gives::Plain(block.head.mark.promise()))
        }
        Instruction::Force { .. } => Some(Gives::Plain(Kind::INTEGER)),
        Instruction::Peek { .. } => Some(Gives::Plain(Kind::VALUE)),
        Instruction::Poke { .. } => None,
        Instruction::Call { .. } | Instruction::Dispatch { .. } => {
            let returns = program.signature(instruction)?.returns;
            Some(if returns.is_owned() {
                Gives::Fresh
            } else {
                Gives::Plain(returns.kind())
            })
        }
        Instruction::Skip { .. } => None,
    }
}

impl Gives {
    /// May it enter a register of this type?
    pub fn enters(self, d: Type) -> bool {
        match self {
            Gives::Plain(kind) => d.is_shared() && kind.within(d.kind()),
            Gives::Fresh => d.is_owned() || (d.is_shared() && Kind::VECTOR.within(d.kind())),
        }
    }
}

/// Question 8: do types fit?
pub fn question8(program: &Program) -> Result<(), usize> {
    for version in &program.versions {
        for (number, block) in version.blocks.iter().enumerate() {
            if !result_fits(version, number, block) {
                return Err(block.offset);
            }
            super::all_pass(
                &block.instructions,
                |placed| placed.offset,
                |placed| instruction_fits(program, version, number, &placed.item),
            )?;
        }
    }
    Ok(())
}

/// Block 0's result register lies within the return kind, owned if the return
/// is owned, else shared or owned; that of a promise block is an integer.
pub fn result_fits(version: &Version, number: usize, block: &Block) -> bool {
    let result = version.type_of(block.head.result);
    let returns = version.head.returns;
    if number > 0 {
        result.kind() == Kind::INTEGER
    } else {
        result.kind().within(returns.kind())
            && (result.is_owned() || (result.is_shared() && !returns.is_owned()))
    }
}

/// Do the types of an instruction in this block fit?
fn instruction_fits(
    program: &Program,
    version: &Version,
    number: usize,
    instruction: &Instruction,
) -> bool {
    let reads = instruction.reads();
    let needs = needs(program, version, instruction);
    let operands_fit = reads
        .iter()
        .zip(needs)
        .all(|(&r, need)| need.met_by(version.type_of(r)));
    let result_fits = match (
        instruction.destination(),
        gives(program, version, instruction),
    ) {
        (Some(d), Some(given)) => given.enters(version.type_of(d)),
        _ => true,
    };
    let emptied = program.emptied(instruction);
    let stands_once = |r: &Register| reads.iter().filter(|&read| read == r).count() == 1;
    let changes_vectors = !emptied.is_empty() || matches!(instruction, Instruction::Set { .. });
    operands_fit
        && result_fits
        && emptied.iter().all(stands_once)
        && (number == 0 || !changes_vectors)
}
