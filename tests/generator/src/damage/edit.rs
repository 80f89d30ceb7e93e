//! Small changes to drafts and records that the ways of breaking share.

use crate::draft::{Draft, DraftBlock, DraftVersion, Site};
use crate::random::Random;
use reference::bounds::{INSTRUCTIONS, REGISTERS};
use reference::{kinds, Instruction, Record, Register, Type};

/// The places in an instruction's body that hold a register, d first.
pub fn register_fields(instruction: &Instruction) -> Vec<usize> {
    let length = instruction.body().len();
    match instruction.kind() {
        kinds::LIT | kinds::NAMED | kinds::PROM | kinds::SKIP => vec![0],
        kinds::VEC => [0].into_iter().chain(2..length).collect(),
        kinds::ARITH => vec![0, 2, 3],
        kinds::STORE => vec![1],
        kinds::PEEK => vec![0, 1],
        kinds::POKE => vec![0, 2],
        kinds::CALL => [0].into_iter().chain(4..length).collect(),
        kinds::DISPATCH => [0].into_iter().chain((6..length).step_by(2)).collect(),
        _ => (0..length).collect(),
    }
}

/// The places in an instruction's body that hold a register it only reads.
pub fn operand_fields(instruction: &Instruction) -> Vec<usize> {
    let mut fields = register_fields(instruction);
    if instruction.destination().is_some() {
        fields.remove(0);
    }
    fields
}

/// The instruction with another byte at a place of its body.
pub fn with_byte(instruction: &Instruction, place: usize, byte: u8) -> Instruction {
    let mut body = instruction.body();
    body[place] = byte;
    Instruction::read(instruction.kind(), &body).expect("the same fields")
}

/// One of the instructions that pass.
pub fn site(
    random: &mut Random,
    draft: &Draft,
    passes: impl Fn(&Instruction) -> bool,
) -> Option<Site> {
    random.choose(&draft.sites(passes))
}

/// Passes the instructions of a kind.
pub fn of_kind(kind: u16) -> impl Fn(&Instruction) -> bool {
    move |instruction| instruction.kind() == kind
}

/// Changes one of the instructions that pass.
pub fn change(
    random: &mut Random,
    draft: &Draft,
    passes: impl Fn(&Instruction) -> bool,
    change: impl FnOnce(&mut Random, &mut Instruction),
) -> Option<Vec<u8>> {
    let mut draft = draft.clone();
    let site = site(random, &draft, passes)?;
    change(random, draft.at(site));
    Some(draft.bytes())
}

/// Puts a new register into one of these fields of an instruction, its type
/// made of the old register's.
pub fn swap_register(
    random: &mut Random,
    draft: &Draft,
    fields: impl Fn(&Instruction) -> Vec<usize>,
    new_type: impl FnOnce(&mut Random, Type) -> Type,
) -> Option<Vec<u8>> {
    let mut draft = draft.clone();
    let site = site(random, &draft, |i| !fields(i).is_empty())?;
    let field = random.choose(&fields(draft.at(site)))?;
    let old = draft.at(site).body()[field];
    let version = &mut draft.versions[site.version];
    let ty = new_type(random, version.types[usize::from(old)]);
    let new = add_register(version, ty)?;
    let instruction = draft.at(site);
    *instruction = with_byte(instruction, field, new);
    Some(draft.bytes())
}

/// Adds registers of these types, and instructions over them, to one of the
/// blocks that pass.
pub fn added(
    random: &mut Random,
    draft: &Draft,
    passes: impl Fn(usize, &DraftBlock) -> bool,
    types: &[Type],
    instructions: impl Fn(&[Register]) -> Vec<Instruction>,
) -> Option<Vec<u8>> {
    let mut draft = draft.clone();
    let (index, number) = block(random, &draft, passes)?;
    let version = &mut draft.versions[index];
    let registers = types.iter().map(|&ty| add_register(version, ty));
    let registers: Vec<Register> = registers.collect::<Option<_>>()?;
    append(&mut version.blocks[number], instructions(&registers))?;
    Some(draft.bytes())
}

/// One of the blocks that pass, by version and number.
pub fn block(
    random: &mut Random,
    draft: &Draft,
    passes: impl Fn(usize, &DraftBlock) -> bool,
) -> Option<(usize, usize)> {
    let mut blocks = Vec::new();
    for (index, version) in draft.versions.iter().enumerate() {
        let passing = version.blocks.iter().enumerate();
        let passing = passing.filter(|(number, block)| passes(*number, block));
        blocks.extend(passing.map(|(number, _)| (index, number)));
    }
    random.choose(&blocks)
}

/// A new register of the version, if it may have one more.
pub fn add_register(version: &mut DraftVersion, ty: Type) -> Option<Register> {
    if version.types.len() >= REGISTERS {
        return None;
    }
    version.types.push(ty);
    Some(version.types.len() as Register - 1)
}

/// Puts instructions at a place of a block, if they find room.
pub fn insert(block: &mut DraftBlock, at: usize, instructions: Vec<Instruction>) -> Option<()> {
    if block.instructions.len() + instructions.len() > INSTRUCTIONS {
        return None;
    }
    block.instructions.splice(at..at, instructions);
    Some(())
}

/// Puts instructions at the end of a block, if they find room.
pub fn append(block: &mut DraftBlock, instructions: Vec<Instruction>) -> Option<()> {
    let end = block.instructions.len();
    insert(block, end, instructions)
}

/// One of the records that pass, by index.
pub fn record(
    random: &mut Random,
    records: &[Record],
    passes: impl Fn(&Record) -> bool,
) -> Option<usize> {
    let passing = (0..records.len()).filter(|&index| passes(&records[index]));
    let passing: Vec<usize> = passing.collect();
    random.choose(&passing)
}
