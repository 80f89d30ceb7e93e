//! Ways to fail question 7.

use super::edit::{block, change, insert, of_kind, register_fields, site, with_byte};
use super::Breaker;
use crate::draft::{Draft, DraftBlock};
use crate::random::Random;
use reference::bounds::{BLOCKS, FUNCTIONS, LISTED, NAMES};
use reference::{kinds, Instruction, Mark, Type};

/// Ways to fail question 7.
pub const BREAKERS: [Breaker; 12] = [
    register,
    register,
    result_register,
    name,
    called_function,
    called_version,
    dispatched_function,
    argument_count,
    promise_block,
    block_named_twice,
    block_not_named,
    block_added,
];

/// A number at a bound, just above it, or the greatest.
fn missing(random: &mut Random, bound: usize) -> u8 {
    random.pick(&[bound, bound, bound + 1, 255]) as u8
}

fn register(random: &mut Random, draft: &Draft) -> Option<Vec<u8>> {
    let mut draft = draft.clone();
    let site = site(random, &draft, |_| true)?;
    let registers = draft.versions[site.version].types.len();
    let instruction = draft.at(site);
    let field = random.choose(&register_fields(instruction))?;
    *instruction = with_byte(instruction, field, missing(random, registers));
    Some(draft.bytes())
}

fn result_register(random: &mut Random, draft: &Draft) -> Option<Vec<u8>> {
    let mut draft = draft.clone();
    let (version, number) = block(random, &draft, |_, _| true)?;
    let version = &mut draft.versions[version];
    version.blocks[number].result = missing(random, version.types.len());
    Some(draft.bytes())
}

fn name(random: &mut Random, draft: &Draft) -> Option<Vec<u8>> {
    let has_name = |i: &Instruction| i.name().is_some();
    change(random, draft, has_name, |random, user| {
        let wrong = missing(random, NAMES);
        match user {
            Instruction::Named { x, .. }
            | Instruction::Store { x, .. }
            | Instruction::Peek { x, .. }
            | Instruction::Poke { x, .. } => *x = wrong,
            _ => unreachable!("it has no name"),
        }
    })
}

/// A function that the draft does not have.
fn missing_function(random: &mut Random, draft: &Draft) -> u8 {
    let functions = draft.versions.last().map_or(0, |v| v.function) + 1;
    random.pick(&[functions, functions, FUNCTIONS as u8, 255])
}

fn called_function(random: &mut Random, draft: &Draft) -> Option<Vec<u8>> {
    let wrong = missing_function(random, draft);
    change(random, draft, of_kind(kinds::CALL), |_, call| {
        if let Instruction::Call { function, .. } = call {
            *function = wrong;
        }
    })
}

fn called_version(random: &mut Random, draft: &Draft) -> Option<Vec<u8>> {
    let count = |function: u8| {
        draft
            .versions
            .iter()
            .filter(move |v| v.function == function)
    };
    change(random, draft, of_kind(kinds::CALL), |random, call| {
        if let Instruction::Call {
            function, version, ..
        } = call
        {
            *version = missing(random, count(*function).count());
        }
    })
}

fn dispatched_function(random: &mut Random, draft: &Draft) -> Option<Vec<u8>> {
    let wrong = missing_function(random, draft);
    change(random, draft, of_kind(kinds::DISPATCH), |_, dispatch| {
        if let Instruction::Dispatch { function, .. } = dispatch {
            *function = wrong;
        }
    })
}

fn argument_count(random: &mut Random, draft: &Draft) -> Option<Vec<u8>> {
    change(random, draft, of_kind(kinds::CALL), |random, call| {
        if let Instruction::Call { arguments, .. } = call {
            let fewer = arguments.len() == LISTED || random.one_in(2);
            if fewer && !arguments.is_empty() {
                arguments.pop();
            } else {
                arguments.push(0);
            }
        }
    })
}

fn promise_block(random: &mut Random, draft: &Draft) -> Option<Vec<u8>> {
    let mut draft = draft.clone();
    let site = site(random, &draft, of_kind(kinds::PROM))?;
    let blocks = draft.versions[site.version].blocks.len();
    if let Instruction::Prom { block, .. } = draft.at(site) {
        let lower = random.below(site.block + 1) as u8;
        *block = random.pick(&[site.block as u8, lower, blocks as u8, 255]);
    }
    Some(draft.bytes())
}

fn block_named_twice(random: &mut Random, draft: &Draft) -> Option<Vec<u8>> {
    let mut draft = draft.clone();
    let site = site(random, &draft, of_kind(kinds::PROM))?;
    let again = draft.at(site).clone();
    let into = random.below(site.block + 1);
    let block = &mut draft.versions[site.version].blocks[into];
    let at = random.below(block.instructions.len() + 1);
    insert(block, at, vec![again])?;
    Some(draft.bytes())
}

fn block_not_named(random: &mut Random, draft: &Draft) -> Option<Vec<u8>> {
    let mut draft = draft.clone();
    let site = site(random, &draft, of_kind(kinds::PROM))?;
    let d = draft.at(site).destination()?;
    *draft.at(site) = Instruction::Lit { d, value: 0 };
    Some(draft.bytes())
}

fn block_added(random: &mut Random, draft: &Draft) -> Option<Vec<u8>> {
    let mut draft = draft.clone();
    let index = random.below(draft.versions.len());
    let version = &mut draft.versions[index];
    if version.blocks.len() == BLOCKS {
        return None;
    }
    let result = version.types.iter().position(|&ty| ty == Type::INTEGER)?;
    version.blocks.push(DraftBlock {
        mark: Mark::QUIET,
        result: result as u8,
        instructions: vec![],
    });
    Some(draft.bytes())
}
