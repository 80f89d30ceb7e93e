//! Question 6: type bytes at their places.

use super::all_pass;
use crate::instruction::Instruction;
use crate::program::{Program, Version};

/// Question 6: is each type byte allowed at its place?
pub fn question6(program: &Program) -> Result<(), usize> {
    for version in &program.versions {
        if !version_types_allowed(version) {
            return Err(version.offset);
        }
        let instructions = version.blocks.iter().flat_map(|b| &b.instructions);
        all_pass(
            instructions,
            |placed| placed.offset,
            |placed| signature_types_allowed(&placed.item),
        )?;
    }
    Ok(())
}

/// Are the return type and the register types of a VERSION allowed?
fn version_types_allowed(version: &Version) -> bool {
    let (parameters, others) = version
        .head
        .types
        .split_at(usize::from(version.head.parameters));
    version.head.returns.allowed_on_return()
        && parameters.iter().all(|ty| ty.allowed_on_parameter())
        && others.iter().all(|ty| ty.allowed_on_register())
}

/// Are the types of a DISPATCH's signature allowed? Other instructions hold none.
fn signature_types_allowed(instruction: &Instruction) -> bool {
    match instruction {
        Instruction::Dispatch {
            returns, arguments, ..
        } => {
            returns.allowed_on_return() && arguments.iter().all(|(ty, _)| ty.allowed_on_parameter())
        }
        _ => true,
    }
}
