//! Question 7: what records name must exist, and each promise block has one PROM.

use super::all_pass;
use crate::bounds::NAMES;
use crate::instruction::Instruction;
use crate::program::{Program, Version};

/// Question 7: do registers, names, functions, called versions and PROM's block exist,
/// is CALL's n the version's parameter count, is PROM's block above its own,
/// and is every block but 0 named by exactly one PROM in its version?
pub fn question7(program: &Program) -> Result<(), usize> {
    for version in &program.versions {
        for (number, block) in version.blocks.iter().enumerate() {
            let named_once = number == 0 || proms_naming(version, number) == 1;
            if !version.declares(block.head.result) || !named_once {
                return Err(block.offset);
            }
            all_pass(
                &block.instructions,
                |placed| placed.offset,
                |placed| names_what_exists(program, version, number, &placed.item),
            )?;
        }
    }
    Ok(())
}

/// How many PROM records of the version name the block.
fn proms_naming(version: &Version, number: usize) -> usize {
    let instructions = version.blocks.iter().flat_map(|b| &b.instructions);
    let named = instructions.filter_map(|placed| match placed.item {
        Instruction::Prom { block, .. } => Some(usize::from(block)),
        _ => None,
    });
    named.filter(|&block| block == number).count()
}

/// Does all that the instruction names exist, as seen from block `own` of the version?
fn names_what_exists(
    program: &Program,
    version: &Version,
    own: usize,
    instruction: &Instruction,
) -> bool {
    let mut registers = instruction.reads();
    registers.extend(instruction.assigns());
    registers.iter().all(|&r| version.declares(r))
        && instruction.name().is_none_or(|x| usize::from(x) < NAMES)
        && match *instruction {
            Instruction::Prom { block, .. } => {
                usize::from(block) < version.blocks.len() && usize::from(block) > own
            }
            Instruction::Call {
                function,
                version,
                ref arguments,
                ..
            } => program
                .version(function.into(), version.into())
                .is_some_and(|called| called.parameters().len() == arguments.len()),
            Instruction::Dispatch { function, .. } => {
                program.versions_of(function.into()).next().is_some()
            }
            _ => true,
        }
}
