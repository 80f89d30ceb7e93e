//! Ways to fail question 10.

use super::edit::{add_register, append, block, insert, operand_fields, swap_register, with_byte};
use super::Breaker;
use crate::draft::{Draft, DraftBlock, DraftVersion};
use crate::random::Random;
use reference::bounds::BLOCKS;
use reference::{Instruction, Mark, Register, Type};

/// Ways to fail question 10.
pub const BREAKERS: [Breaker; 17] = [
    operand_never_assigned,
    operand_never_assigned,
    result_never_assigned,
    assignment_lost,
    read_after_emptied,
    read_before_filled_again,
    read_by_what_fills_again,
    emptied_twice,
    emptied_by_what_fills_again,
    emptied_after_captured,
    filled_again_after_captured,
    captured_after_emptied,
    assigned_on_one_way,
    emptied_on_one_way,
    captured_on_one_way,
    filled_again_on_one_way,
    condition_never_assigned,
];

/// A type for a register that no parameter is.
fn unborrowed(ty: Type) -> Type {
    if ty.is_borrowed() {
        Type::VECTOR
    } else {
        ty
    }
}

fn operand_never_assigned(random: &mut Random, draft: &Draft) -> Option<Vec<u8>> {
    swap_register(random, draft, operand_fields, |_, ty| unborrowed(ty))
}

fn result_never_assigned(random: &mut Random, draft: &Draft) -> Option<Vec<u8>> {
    let mut draft = draft.clone();
    let (index, number) = block(random, &draft, |_, _| true)?;
    let version = &mut draft.versions[index];
    let old = version.blocks[number].result;
    let ty = version.types[usize::from(old)];
    version.blocks[number].result = add_register(version, ty)?;
    Some(draft.bytes())
}

/// Turns all assignments of a register that the body reads to a new register.
fn assignment_lost(random: &mut Random, draft: &Draft) -> Option<Vec<u8>> {
    let mut draft = draft.clone();
    let index = random.below(draft.versions.len());
    let version = &mut draft.versions[index];
    let result = version.blocks[0].result;
    if usize::from(result) < version.parameters {
        return None;
    }
    let ty = version.types[usize::from(result)];
    let new = add_register(version, ty)?;
    for instruction in &mut version.blocks[0].instructions {
        if instruction.assigns() == Some(result) {
            *instruction = with_byte(instruction, 0, new);
        }
    }
    Some(draft.bytes())
}

/// A body that gets two new owned registers, the first of them filled, and
/// instructions over them at its end.
fn over_owned(
    random: &mut Random,
    draft: &Draft,
    instructions: impl Fn(Register, Register) -> Vec<Instruction>,
) -> Option<Vec<u8>> {
    let mut draft = draft.clone();
    let index = random.below(draft.versions.len());
    let version = &mut draft.versions[index];
    let (a, d) = owned_pair(version)?;
    let mut added = vec![filled(a)];
    added.extend(instructions(a, d));
    append(&mut version.blocks[0], added)?;
    Some(draft.bytes())
}

/// Two new owned registers.
fn owned_pair(version: &mut DraftVersion) -> Option<(Register, Register)> {
    let first = add_register(version, Type::OWNED)?;
    Some((first, add_register(version, Type::OWNED)?))
}

/// An empty vector in a register.
fn filled(d: Register) -> Instruction {
    let items = vec![];
    Instruction::Vec { d, items }
}

fn read_after_emptied(random: &mut Random, draft: &Draft) -> Option<Vec<u8>> {
    over_owned(random, draft, |a, d| {
        vec![Instruction::Use { d, a }, Instruction::Dup { d, a }]
    })
}

fn emptied_twice(random: &mut Random, draft: &Draft) -> Option<Vec<u8>> {
    over_owned(random, draft, |a, d| {
        vec![Instruction::Use { d, a }, Instruction::Use { d, a }]
    })
}

fn read_before_filled_again(random: &mut Random, draft: &Draft) -> Option<Vec<u8>> {
    over_owned(random, draft, |a, d| {
        vec![
            Instruction::Use { d, a },
            Instruction::Dup { d, a },
            filled(a),
        ]
    })
}

fn read_by_what_fills_again(random: &mut Random, draft: &Draft) -> Option<Vec<u8>> {
    over_owned(random, draft, |a, d| {
        vec![Instruction::Use { d, a }, Instruction::Dup { d: a, a }]
    })
}

fn emptied_by_what_fills_again(random: &mut Random, draft: &Draft) -> Option<Vec<u8>> {
    over_owned(random, draft, |a, d| {
        vec![Instruction::Use { d, a }, Instruction::Use { d: a, a }]
    })
}

/// A version with a promise block that reads a new owned register, which the
/// body fills at its start; the pair of registers it got.
fn capturing(
    random: &mut Random,
    draft: &mut Draft,
    at_start: impl Fn(Register, Register) -> Vec<Instruction>,
) -> Option<(usize, Register, Register)> {
    let (index, number) = block(random, draft, |n, _| n > 0)?;
    let version = &mut draft.versions[index];
    let (a, d) = owned_pair(version)?;
    let reads = Instruction::Dup { d, a };
    append(&mut version.blocks[number], vec![reads])?;
    insert(&mut version.blocks[0], 0, at_start(a, d))?;
    Some((index, a, d))
}

fn emptied_after_captured(random: &mut Random, draft: &Draft) -> Option<Vec<u8>> {
    let mut draft = draft.clone();
    let (index, a, d) = capturing(random, &mut draft, |a, _| vec![filled(a)])?;
    append(
        &mut draft.versions[index].blocks[0],
        vec![Instruction::Use { d, a }],
    )?;
    Some(draft.bytes())
}

fn filled_again_after_captured(random: &mut Random, draft: &Draft) -> Option<Vec<u8>> {
    let mut draft = draft.clone();
    let (index, a, _) = capturing(random, &mut draft, |a, _| vec![filled(a)])?;
    append(
        &mut draft.versions[index].blocks[0],
        vec![Instruction::Use { d: a, a }],
    )?;
    Some(draft.bytes())
}

fn captured_after_emptied(random: &mut Random, draft: &Draft) -> Option<Vec<u8>> {
    let mut draft = draft.clone();
    capturing(random, &mut draft, |a, d| {
        vec![filled(a), Instruction::Use { d, a }]
    })?;
    Some(draft.bytes())
}

/// A SKIP of the next instruction, by an integer that a new register takes before it.
fn skipping_one(version: &mut DraftVersion) -> Option<[Instruction; 2]> {
    let d = add_register(version, Type::INTEGER)?;
    let value = 1;
    Some([
        Instruction::Lit { d, value },
        Instruction::Skip { a: d, n: 1 },
    ])
}

fn assigned_on_one_way(random: &mut Random, draft: &Draft) -> Option<Vec<u8>> {
    let mut draft = draft.clone();
    let (index, number) = block(random, &draft, |_, _| true)?;
    let version = &mut draft.versions[index];
    let mut added = skipping_one(version)?.to_vec();
    let (a, d) = owned_pair(version)?;
    added.extend([filled(a), Instruction::Dup { d, a }]);
    append(&mut version.blocks[number], added)?;
    Some(draft.bytes())
}

fn emptied_on_one_way(random: &mut Random, draft: &Draft) -> Option<Vec<u8>> {
    let mut draft = draft.clone();
    let index = random.below(draft.versions.len());
    let version = &mut draft.versions[index];
    let (a, d) = owned_pair(version)?;
    let mut added = vec![filled(a)];
    added.extend(skipping_one(version)?);
    let again = random.pick(&[Instruction::Dup { d, a }, Instruction::Use { d, a }]);
    added.extend([Instruction::Use { d, a }, again]);
    append(&mut version.blocks[0], added)?;
    Some(draft.bytes())
}

fn filled_again_on_one_way(random: &mut Random, draft: &Draft) -> Option<Vec<u8>> {
    let mut draft = draft.clone();
    let index = random.below(draft.versions.len());
    let version = &mut draft.versions[index];
    let (a, d) = owned_pair(version)?;
    let mut added = vec![filled(a), Instruction::Use { d, a }];
    added.extend(skipping_one(version)?);
    added.extend([filled(a), Instruction::Dup { d, a }]);
    append(&mut version.blocks[0], added)?;
    Some(draft.bytes())
}

/// A promise that is made on one way only captures a register that is emptied
/// at the end of the body.
fn captured_on_one_way(random: &mut Random, draft: &Draft) -> Option<Vec<u8>> {
    let mut draft = draft.clone();
    let index = random.below(draft.versions.len());
    let version = &mut draft.versions[index];
    if version.blocks.len() >= BLOCKS {
        return None;
    }
    let (a, d) = owned_pair(version)?;
    let promise = add_register(version, Type::shared(Mark::QUIET.promise()))?;
    let [literal, skip] = skipping_one(version)?;
    let block = version.blocks.len() as u8;
    let result = literal.destination()?;
    version.blocks.push(DraftBlock {
        mark: Mark::QUIET,
        result,
        instructions: vec![Instruction::Dup { d, a }],
    });
    let prom = Instruction::Prom { d: promise, block };
    let emptied = Instruction::Use { d, a };
    let added = vec![filled(a), literal, skip, prom, emptied];
    append(&mut version.blocks[0], added)?;
    Some(draft.bytes())
}

fn condition_never_assigned(random: &mut Random, draft: &Draft) -> Option<Vec<u8>> {
    let mut draft = draft.clone();
    let (index, number) = block(random, &draft, |_, _| true)?;
    let version = &mut draft.versions[index];
    let a = add_register(version, Type::INTEGER)?;
    append(
        &mut version.blocks[number],
        vec![Instruction::Skip { a, n: 0 }],
    )?;
    Some(draft.bytes())
}
