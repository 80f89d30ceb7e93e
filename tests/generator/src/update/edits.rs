//! Small changes of one version, most of which leave it accepted.

use crate::damage::edit::{add_register, insert, register_fields, with_byte};
use crate::draft::DraftVersion;
use crate::random::Random;
use reference::kinds::OPERATIONS;
use reference::{Instruction, Integer, Kind, Level, Mark, Register, Type};

/// One way to change a version; none if it offers no place for it.
type Edit = fn(&mut Random, &mut DraftVersion) -> Option<()>;

/// The ways, by how often they are wanted.
const EDITS: [(usize, Edit); 10] = [
    (5, other_literal),
    (5, other_operation),
    (4, literal_more),
    (3, instruction_less),
    (3, other_register),
    (3, other_last_byte),
    (2, register_more),
    (2, other_type),
    (2, other_block),
    (4, other_level),
];

/// Changes a version in one place.
pub fn edit(random: &mut Random, version: &mut DraftVersion) -> Option<()> {
    let edit = random.weighted(&EDITS);
    edit(random, version)
}

/// One of the instructions that pass.
fn site<'v>(
    random: &mut Random,
    version: &'v mut DraftVersion,
    passes: impl Fn(&Instruction) -> bool,
) -> Option<&'v mut Instruction> {
    let blocks = version.blocks.iter_mut();
    let all = blocks.flat_map(|block| block.instructions.iter_mut());
    let mut passing: Vec<&mut Instruction> = all.filter(|item| passes(item)).collect();
    if passing.is_empty() {
        return None;
    }
    let index = random.below(passing.len());
    Some(passing.swap_remove(index))
}

fn other_literal(random: &mut Random, version: &mut DraftVersion) -> Option<()> {
    let is_literal = |item: &Instruction| matches!(item, Instruction::Lit { .. });
    let Instruction::Lit { value, .. } = site(random, version, is_literal)? else {
        return None;
    };
    let near = value.wrapping_add(random.pick(&[-1, 1, 256, -7]));
    *value = random.pick(&[near, near, 0, 3, Integer::MAX]);
    Some(())
}

fn other_operation(random: &mut Random, version: &mut DraftVersion) -> Option<()> {
    let is_arith = |item: &Instruction| matches!(item, Instruction::Arith { .. });
    let Instruction::Arith { op, .. } = site(random, version, is_arith)? else {
        return None;
    };
    *op = random.below(OPERATIONS.into()) as u8;
    Some(())
}

/// An integer register of the version.
fn integer(random: &mut Random, version: &DraftVersion) -> Option<Register> {
    let integers = (0..version.types.len()).filter(|&r| version.types[r] == Type::INTEGER);
    let integers: Vec<Register> = integers.map(|r| r as Register).collect();
    random.choose(&integers)
}

fn literal_more(random: &mut Random, version: &mut DraftVersion) -> Option<()> {
    let d = integer(random, version)?;
    let value = random.between(-3, 12);
    let index = random.below(version.blocks.len());
    let block = &mut version.blocks[index];
    let at = random.below(block.instructions.len() + 1);
    insert(block, at, vec![Instruction::Lit { d, value }])
}

fn instruction_less(random: &mut Random, version: &mut DraftVersion) -> Option<()> {
    let filled = version.blocks.iter_mut();
    let mut filled: Vec<_> = filled.filter(|b| !b.instructions.is_empty()).collect();
    if filled.is_empty() {
        return None;
    }
    let index = random.below(filled.len());
    let instructions = &mut filled[index].instructions;
    instructions.remove(random.below(instructions.len()));
    Some(())
}

fn other_register(random: &mut Random, version: &mut DraftVersion) -> Option<()> {
    let registers = version.types.len();
    let names = |item: &Instruction| !register_fields(item).is_empty();
    let instruction = site(random, version, names)?;
    let field = random.choose(&register_fields(instruction))?;
    *instruction = with_byte(instruction, field, random.below(registers) as u8);
    Some(())
}

fn other_last_byte(random: &mut Random, version: &mut DraftVersion) -> Option<()> {
    let registers = version.types.len();
    let instruction = version.blocks.last_mut()?.instructions.last_mut()?;
    let body = instruction.body();
    let last = body.len() - 1;
    let near = body[last].wrapping_add(random.pick(&[1, 255]));
    let other = random.below(registers) as u8;
    let byte = random.pick(&[near, other]);
    *instruction = Instruction::read(instruction.kind(), &[&body[..last], &[byte]].concat())?;
    Some(())
}

fn register_more(random: &mut Random, version: &mut DraftVersion) -> Option<()> {
    let ty = random.pick(&[Type::INTEGER, Type::VECTOR, Type::OWNED, Type::ANY]);
    add_register(version, ty).map(|_| ())
}

/// Another type of a register; of a vector mostly another ownership, so that a
/// call empties what it did not, or leaves what it emptied.
fn other_type(random: &mut Random, version: &mut DraftVersion) -> Option<()> {
    let register = random.below(version.types.len());
    let ty = &mut version.types[register];
    *ty = if ty.kind() == Kind::VECTOR && random.percent(80) {
        random.pick(&[Type::VECTOR, Type::OWNED, Type::BORROWED])
    } else {
        Type::shared(random.pick(&Kind::ALL))
    };
    Some(())
}

fn other_block(random: &mut Random, version: &mut DraftVersion) -> Option<()> {
    let registers = version.types.len();
    let index = random.below(version.blocks.len());
    let block = &mut version.blocks[index];
    if random.one_in(2) {
        block.mark = random.pick(&[Mark::QUIET, Mark::REFLECTIVE]);
    } else {
        block.result = random.below(registers) as Register;
    }
    Some(())
}

fn other_level(random: &mut Random, version: &mut DraftVersion) -> Option<()> {
    let mut others = Level::ALL.to_vec();
    others.retain(|&level| level != version.level);
    version.level = random.pick(&others);
    Some(())
}
