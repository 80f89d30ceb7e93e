//! Question 14: which end a SKIP goes past.

use super::{Found, FoundRecord};
use crate::number::many;
use crate::place::place;
use crate::source::Source;
use reference::record::Placed;
use reference::Instruction;

/// Question 14: which end the SKIP at an offset goes past, that of its block or
/// of a part that it stands in.
pub fn skips(source: &Source, found: &Found, offset: usize) -> Option<String> {
    let FoundRecord::Instruction(number, &Instruction::Skip { n, .. }) = found.record else {
        return None;
    };
    let instructions = &found.version.blocks.get(number)?.instructions;
    let own = instructions.iter().position(|p| p.offset == offset)?;
    let around = part_around(&instructions[..own]);
    let (skip, end) = match around {
        Some((skip, end)) if end < instructions.len() => (Some(skip), end),
        _ => (None, instructions.len()),
    };
    let left = end - own - 1;
    if usize::from(n) <= left {
        return None;
    }
    let skipped = many(n.into(), "instruction");
    let left_words = match left {
        0 => "none is left".to_string(),
        1 => "1 is left".to_string(),
        _ => format!("{left} are left"),
    };
    let of = match skip {
        None => format!("BLOCK {number}, where {left_words}"),
        Some(skip) => {
            let skip = place(source, instructions[skip].offset);
            let last = place(source, instructions[end - 1].offset);
            format!(
                "the part of SKIP at {skip}, where {left_words}: it ends with the record at {last}"
            )
        }
    };
    Some(format!("SKIP of {skipped} goes past the end of {of}"))
}

/// The smallest part that what follows these instructions stands in: where its
/// SKIP stands among them, and the place behind its last instruction.
fn part_around(before: &[Placed<Instruction>]) -> Option<(usize, usize)> {
    let skips = before.iter().enumerate().rev();
    let parts = skips.filter_map(|(skip, placed)| match placed.item {
        Instruction::Skip { n, .. } => Some((skip, skip + 1 + usize::from(n))),
        _ => None,
    });
    let around = parts.filter(|&(_, end)| end > before.len());
    around.min_by_key(|&(_, end)| end)
}
