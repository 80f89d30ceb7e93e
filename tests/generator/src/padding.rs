//! Programs of a wished size, up to the bound of an image.

use crate::draft::{Draft, DraftBlock, DraftVersion};
use crate::random::Random;
use reference::bounds::{FUNCTIONS, INSTRUCTIONS, MAX_IMAGE, REGISTERS, VERSIONS};
use reference::record::HEAD;
use reference::{kinds, Instruction, Integer, Level, Mark, Type};

/// The bytes of a LIT.
const LIT: usize = HEAD + 1 + size_of::<Integer>();

/// The bytes of a padding version without padding: a VERSION with one
/// register, a LEVEL, a BLOCK, and a LIT.
const SMALLEST: usize = (HEAD + 7) + (HEAD + 1) + (HEAD + 3) + LIT;

/// The most bytes of a padding version.
const LARGEST: usize = SMALLEST + (REGISTERS - 1) + (INSTRUCTIONS - 1) * LIT;

/// Adds versions that do nothing of note until the image has exactly the most
/// bytes, or nearly so many.
pub fn pad(random: &mut Random, draft: &mut Draft) {
    let short = random.below(100);
    pad_to(draft, MAX_IMAGE - random.pick(&[0, 0, 1, short]));
}

/// Adds versions that do nothing of note, most of it by literals, until the image
/// has exactly so many bytes, if it can.
pub fn pad_to(draft: &mut Draft, wished: usize) {
    let mut length = draft.bytes().len();
    loop {
        let missing = wished.saturating_sub(length);
        let (function, version) = draft.next_numbers();
        let room = usize::from(function) < FUNCTIONS && draft.versions.len() < VERSIONS;
        if missing < SMALLEST || !room {
            return;
        }
        let size = if missing < LARGEST {
            missing
        } else {
            LARGEST.min(missing - SMALLEST)
        };
        draft.versions.push(padding(function, version, size));
        length += size;
    }
}

/// A version of exactly so many bytes.
fn padding(function: u8, version: u8, size: usize) -> DraftVersion {
    let mut instructions = vec![Instruction::Lit { d: 0, value: 0 }];
    let mut missing = size - SMALLEST;
    while missing >= 6 && instructions.len() < INSTRUCTIONS {
        let instruction = match missing {
            LIT.. => Instruction::Lit { d: 0, value: -1 },
            8.. => Instruction::Arith {
                d: 0,
                op: kinds::LESS,
                a: 0,
                b: 0,
            },
            _ => Instruction::Move { d: 0, a: 0 },
        };
        missing -= HEAD + instruction.body().len();
        instructions.push(instruction);
    }
    DraftVersion {
        function,
        version,
        parameters: 0,
        returns: Type::INTEGER,
        types: vec![Type::INTEGER; 1 + missing],
        level: Level::PORTAL,
        blocks: vec![DraftBlock {
            mark: Mark::QUIET,
            result: 0,
            instructions,
        }],
    }
}
