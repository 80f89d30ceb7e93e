//! Question 18: calls and levels.

use super::all_pass;
use crate::instruction::Instruction;
use crate::program::{Program, Version};

/// Question 18: does each CALL name a version of its own version's level or lower?
pub fn question18(program: &Program) -> Result<(), usize> {
    for version in &program.versions {
        let instructions = version.blocks.iter().flat_map(|b| &b.instructions);
        all_pass(
            instructions,
            |placed| placed.offset,
            |placed| !goes_up(program, version, &placed.item),
        )?;
    }
    Ok(())
}

/// Is the instruction a CALL of a version above the level of its own?
fn goes_up(program: &Program, own: &Version, instruction: &Instruction) -> bool {
    let Instruction::Call {
        function, version, ..
    } = *instruction
    else {
        return false;
    };
    let called = program.version(function.into(), version.into());
    called.is_some_and(|called| called.level > own.level)
}
