//! Ways to fail question 4.

use super::edit::{change, of_kind, record};
use super::levels;
use super::Breaker;
use crate::draft::{bytes, Draft, DraftBlock, DraftVersion};
use crate::random::Random;
use reference::bounds::{
    BLOCKS, FUNCTIONS, INSTRUCTIONS, LISTED, PARAMETERS, REGISTERS, VERSIONS, VERSIONS_EACH,
};
use reference::record::{BlockRecord, VersionRecord};
use reference::{kinds, Instruction, Level, Mark, Record, Type};

/// Ways to fail question 4.
pub const BREAKERS: [Breaker; 19] = [
    version_numbers,
    parameter_count,
    register_count,
    block_count,
    version_too_many,
    instructions_too_many,
    instruction_count,
    block_mark,
    dispatch_mark,
    operation,
    listed_too_many,
    record_lost,
    record_doubled,
    end_lost,
    levels::unknown,
    levels::lost,
    levels::lost_at_the_end,
    levels::doubled,
    levels::misplaced,
];

/// A number at a bound or anywhere above it.
pub fn beyond(random: &mut Random, bound: usize) -> u8 {
    let anywhere = bound + random.below(256 - bound);
    random.pick(&[bound, bound, 255, anywhere]) as u8
}

/// Changes one of the VERSION records.
fn change_version(
    random: &mut Random,
    draft: &Draft,
    change: impl FnOnce(&mut Random, &mut VersionRecord),
) -> Option<Vec<u8>> {
    let mut records = draft.records();
    let index = record(random, &records, |r| matches!(r, Record::Version(_)))?;
    if let Record::Version(version) = &mut records[index] {
        change(random, version);
    }
    Some(bytes(&records))
}

/// Changes one of the BLOCK records.
fn change_block(
    random: &mut Random,
    draft: &Draft,
    change: impl FnOnce(&mut Random, &mut BlockRecord),
) -> Option<Vec<u8>> {
    let mut records = draft.records();
    let index = record(random, &records, |r| matches!(r, Record::Block(_)))?;
    if let Record::Block(block) = &mut records[index] {
        change(random, block);
    }
    Some(bytes(&records))
}

fn version_numbers(random: &mut Random, draft: &Draft) -> Option<Vec<u8>> {
    change_version(random, draft, |random, version| {
        if random.one_in(2) {
            version.function = beyond(random, FUNCTIONS);
        } else {
            version.version = beyond(random, VERSIONS_EACH);
        }
    })
}

fn parameter_count(random: &mut Random, draft: &Draft) -> Option<Vec<u8>> {
    change_version(random, draft, |random, version| {
        let registers = version.types.len();
        let least = random.pick(&[PARAMETERS + 1, registers + 1]);
        version.parameters = beyond(random, least);
    })
}

fn register_count(random: &mut Random, draft: &Draft) -> Option<Vec<u8>> {
    change_version(random, draft, |random, version| {
        if random.one_in(3) {
            version.types.clear();
            version.parameters = 0;
        } else {
            let count = beyond(random, REGISTERS + 1);
            version.types.resize(count.into(), Type::INTEGER);
        }
    })
}

fn block_count(random: &mut Random, draft: &Draft) -> Option<Vec<u8>> {
    change_version(random, draft, |random, version| {
        let more = beyond(random, BLOCKS + 1);
        let other = random.pick(&[version.blocks - 1, version.blocks + 1]);
        version.blocks = random.pick(&[0, more, other]);
    })
}

/// The draft with the smallest versions after it, so that there are 65 or more.
fn version_too_many(random: &mut Random, draft: &Draft) -> Option<Vec<u8>> {
    let mut draft = draft.clone();
    let wished = VERSIONS + 1 + random.below(4);
    while draft.versions.len() < wished {
        let (function, version) = draft.next_numbers();
        draft.versions.push(smallest(function, version));
    }
    Some(draft.bytes())
}

/// A version that gives its argument.
fn smallest(function: u8, version: u8) -> DraftVersion {
    DraftVersion {
        function,
        version,
        parameters: 1,
        returns: Type::INTEGER,
        types: vec![Type::INTEGER],
        level: Level::PORTAL,
        blocks: vec![DraftBlock {
            mark: Mark::QUIET,
            result: 0,
            instructions: vec![],
        }],
    }
}

fn instructions_too_many(random: &mut Random, draft: &Draft) -> Option<Vec<u8>> {
    let mut draft = draft.clone();
    let version = random.below(draft.versions.len());
    let block = random.below(draft.versions[version].blocks.len());
    let block = &mut draft.versions[version].blocks[block];
    let wished = INSTRUCTIONS + 1 + random.pick(&[0, 0, 1, 20]);
    let filler = Instruction::Move { d: 0, a: 0 };
    block.instructions.resize(wished, filler);
    Some(draft.bytes())
}

fn instruction_count(random: &mut Random, draft: &Draft) -> Option<Vec<u8>> {
    change_block(random, draft, |random, block| {
        let more = beyond(random, INSTRUCTIONS + 1);
        let near = [1, 255, more.wrapping_sub(block.instructions)];
        block.instructions = block.instructions.wrapping_add(random.pick(&near));
    })
}

fn block_mark(random: &mut Random, draft: &Draft) -> Option<Vec<u8>> {
    change_block(random, draft, |random, block| {
        block.mark = Mark(beyond(random, 2));
    })
}

fn dispatch_mark(random: &mut Random, draft: &Draft) -> Option<Vec<u8>> {
    let dispatches = of_kind(kinds::DISPATCH);
    change(random, draft, dispatches, |random, dispatch| {
        if let Instruction::Dispatch { mark, .. } = dispatch {
            *mark = Mark(beyond(random, 2));
        }
    })
}

fn operation(random: &mut Random, draft: &Draft) -> Option<Vec<u8>> {
    change(random, draft, of_kind(kinds::ARITH), |random, arith| {
        if let Instruction::Arith { op, .. } = arith {
            *op = beyond(random, kinds::OPERATIONS.into());
        }
    })
}

fn listed_too_many(random: &mut Random, draft: &Draft) -> Option<Vec<u8>> {
    let lists = |i: &Instruction| [kinds::VEC, kinds::CALL, kinds::DISPATCH].contains(&i.kind());
    change(random, draft, lists, |random, lister| {
        let count = beyond(random, LISTED + 1).into();
        match lister {
            Instruction::Vec { items, .. } => items.resize(count, 0),
            Instruction::Call { arguments, .. } => arguments.resize(count, 0),
            Instruction::Dispatch { arguments, .. } => arguments.resize(count, (Type::INTEGER, 0)),
            _ => unreachable!("it lists no registers"),
        }
    })
}

fn record_lost(random: &mut Random, draft: &Draft) -> Option<Vec<u8>> {
    let mut records = draft.records();
    records.remove(random.below(records.len()));
    (!records.is_empty()).then(|| bytes(&records))
}

fn record_doubled(random: &mut Random, draft: &Draft) -> Option<Vec<u8>> {
    let mut records = draft.records();
    let again = random.pick(&records);
    records.insert(random.below(records.len() + 1), again);
    Some(bytes(&records))
}

fn end_lost(random: &mut Random, draft: &Draft) -> Option<Vec<u8>> {
    let mut records = draft.records();
    let ends = |index: &usize| !matches!(records[*index], Record::Version(_));
    let ends: Vec<usize> = (1..records.len()).filter(ends).collect();
    records.truncate(random.choose(&ends)?);
    Some(bytes(&records))
}
