//! Question 9: marks and effects.

use super::all_pass;
use crate::instruction::Instruction;
use crate::program::{Block, Program, Version};
use crate::types::{Kind, Mark};

/// Question 9: does each block's mark cover its effect?
pub fn question9(program: &Program) -> Result<(), usize> {
    for version in &program.versions {
        all_pass(
            &version.blocks,
            |block| block.offset,
            |block| block_effect(program, version, block) <= block.head.mark,
        )?;
    }
    Ok(())
}

/// A block's effect is the greatest of its own instructions'.
fn block_effect(program: &Program, version: &Version, block: &Block) -> Mark {
    let instructions = block.instructions.iter();
    instructions
        .map(|placed| effect(program, version, &placed.item))
        .max()
        .unwrap_or(Mark::QUIET)
}

/// Reflective are PEEK, POKE, FORCE of kind 5, and calls with that mark; PROM is quiet.
fn effect(program: &Program, version: &Version, instruction: &Instruction) -> Mark {
    match *instruction {
        Instruction::Peek { .. } | Instruction::Poke { .. } => Mark::REFLECTIVE,
        Instruction::Force { a, .. } if version.type_of(a).kind() == Kind::REFLECTIVE => {
            Mark::REFLECTIVE
        }
        Instruction::Call { .. } | Instruction::Dispatch { .. } => program
            .signature(instruction)
            .map_or(Mark::QUIET, |signature| signature.mark),
        _ => Mark::QUIET,
    }
}
