//! What is wrong with the levels of an image that is refused, for tallies.

use reference::program::{Block, Version};
use reference::record::Framed;
use reference::{kinds, Instruction, Program, Refusal, Verdict};

/// The faults that a LEVEL record, or the lack of one, may have.
pub const LEVEL_FAULTS: [&str; 5] = [
    "a level of another length",
    "an unknown level",
    "a level elsewhere or twice",
    "no level at the end of the image",
    "no level before another record",
];

/// The fault of a LEVEL record for which question 3 or 4 refuses an image, by the
/// verdict on it.
pub fn level_fault(image: &[u8], verdict: Verdict) -> Option<&'static str> {
    let Verdict::Refused(Refusal { number, offset }) = verdict else {
        return None;
    };
    let [length, unknown, misplaced, missing_at_end, missing] = LEVEL_FAULTS;
    let due = kind_before(image, offset) == Some(kinds::VERSION);
    let kind = Framed::at(image, offset).map(|framed| framed.kind);
    match (number, kind) {
        (3, Some(kinds::LEVEL)) => Some(length),
        (4, Some(kinds::LEVEL)) if due => Some(unknown),
        (4, Some(kinds::LEVEL)) => Some(misplaced),
        (4, None) if due => Some(missing_at_end),
        (4, Some(_)) if due => Some(missing),
        _ => None,
    }
}

/// The kind of the record that ends at an offset.
fn kind_before(image: &[u8], offset: usize) -> Option<u16> {
    let (mut kind, mut at) = (None, 0);
    while at < offset {
        let framed = Framed::at(image, at)?;
        kind = Some(framed.kind);
        at = framed.end();
    }
    kind
}

/// Where calls stand.
pub const PLACES_OF_CALLS: [&str; 3] = [
    "a call in a body",
    "a call in a skipped part",
    "a call in a promise block",
];

/// Where the call stands for which question 18 refuses an image, by the verdict on it.
pub fn call_up(image: &[u8], verdict: Verdict) -> Option<&'static str> {
    let Verdict::Refused(Refusal { number: 18, offset }) = verdict else {
        return None;
    };
    let program = Program::ordered(image).ok()?;
    let versions = program.versions.iter().rev();
    let version: &Version = versions.clone().find(|v| v.offset < offset)?;
    let blocks = version.blocks.iter().enumerate().rev();
    let (number, block) = blocks.clone().find(|(_, b)| b.offset < offset)?;
    let [body, part, promise] = PLACES_OF_CALLS;
    Some(match number {
        0 if is_skipped(block, offset) => part,
        0 => body,
        _ => promise,
    })
}

/// Does the instruction at an offset stand in a skipped part of its block?
fn is_skipped(block: &Block, offset: usize) -> bool {
    let instructions = &block.instructions;
    let place = instructions.iter().position(|i| i.offset == offset);
    let before = place.map_or(&instructions[..0], |place| &instructions[..place]);
    before.iter().enumerate().any(|(at, placed)| {
        let last = match placed.item {
            Instruction::Skip { n, .. } => at + usize::from(n),
            _ => at,
        };
        last >= before.len()
    })
}
