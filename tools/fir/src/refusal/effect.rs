//! Question 9: marks and effects.

use super::vocabulary::instruction_name;
use super::{Found, FoundRecord};
use crate::place::place;
use crate::source::Source;
use reference::{Instruction, Kind, Mark};

/// Question 9: which instruction of a quiet block is reflective, and why.
pub fn effect(source: &Source, found: &Found) -> Option<String> {
    let FoundRecord::Block(number, block) = found.record else {
        return None;
    };
    if block.head.mark != Mark::QUIET {
        return None;
    }
    block.instructions.iter().find_map(|placed| {
        let why = reflective(found, &placed.item)?;
        let name = instruction_name(&placed.item);
        let place = place(source, placed.offset);
        Some(format!(
            "BLOCK {number} is quiet, but {name} at {place} is reflective{why}"
        ))
    })
}

/// Why an instruction is reflective; none where it is quiet.
fn reflective(found: &Found, instruction: &Instruction) -> Option<String> {
    match *instruction {
        Instruction::Peek { .. } | Instruction::Poke { .. } => Some(String::new()),
        Instruction::Force { a, .. } if found.version.type_of(a).kind() == Kind::REFLECTIVE => {
            Some(format!(": {} is a reflective promise", found.called(a)))
        }
        Instruction::Call { .. } => {
            let mark = found.program.signature(instruction)?.mark;
            (mark != Mark::QUIET).then(|| ": its block 0 is reflective".to_string())
        }
        Instruction::Dispatch { mark, .. } => {
            (mark != Mark::QUIET).then(|| ": its mark says so".to_string())
        }
        _ => None,
    }
}
