//! Question 14: where skipped parts end.

use crate::instruction::Instruction;
use crate::program::Program;
use crate::record::Placed;

/// Question 14: does no SKIP go past the end of its block, or of a skipped part
/// that it stands in?
pub fn question14(program: &Program) -> Result<(), usize> {
    let blocks = program.versions.iter().flat_map(|v| &v.blocks);
    for block in blocks {
        parts_end_inside(&block.instructions)?;
    }
    Ok(())
}

/// Do the parts that the SKIPs of a block, or of a part, pass over end inside it?
fn parts_end_inside(mut instructions: &[Placed<Instruction>]) -> Result<(), usize> {
    while let [first, rest @ ..] = instructions {
        instructions = rest;
        if let Instruction::Skip { n, .. } = first.item {
            let parts = rest.split_at_checked(usize::from(n));
            let (part, behind) = parts.ok_or(first.offset)?;
            parts_end_inside(part)?;
            instructions = behind;
        }
    }
    Ok(())
}
