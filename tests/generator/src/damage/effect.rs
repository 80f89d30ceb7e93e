//! Ways to fail question 9.

use super::edit::{added, of_kind, site};
use super::Breaker;
use crate::draft::{Draft, DraftBlock, DraftVersion};
use crate::random::Random;
use reference::bounds::NAMES;
use reference::{kinds, Instruction, Kind, Mark, Name, Register, Type};

/// Ways to fail question 9.
pub const BREAKERS: [Breaker; 6] = [
    mark_lowered,
    peek_added,
    poke_added,
    force_added,
    dispatch_added,
    called_mark_raised,
];

/// Has the block an instruction that is reflective in itself?
fn reflects(version: &DraftVersion, block: &DraftBlock) -> bool {
    block
        .instructions
        .iter()
        .any(|instruction| match *instruction {
            Instruction::Peek { .. } | Instruction::Poke { .. } => true,
            Instruction::Force { a, .. } => {
                version.types[usize::from(a)].kind() == Kind::REFLECTIVE
            }
            Instruction::Dispatch { mark, .. } => mark == Mark::REFLECTIVE,
            _ => false,
        })
}

fn mark_lowered(random: &mut Random, draft: &Draft) -> Option<Vec<u8>> {
    let mut draft = draft.clone();
    let mut reflecting = Vec::new();
    for (index, version) in draft.versions.iter().enumerate() {
        let blocks = version.blocks.iter().enumerate();
        let found = blocks.filter(|(_, block)| reflects(version, block));
        reflecting.extend(found.map(|(number, _)| (index, number)));
    }
    let (version, number) = random.choose(&reflecting)?;
    draft.versions[version].blocks[number].mark = Mark::QUIET;
    Some(draft.bytes())
}

/// Adds an instruction over two new registers to a quiet block.
fn added_to_quiet(
    random: &mut Random,
    draft: &Draft,
    types: [Type; 2],
    instruction: impl Fn(Register, Register) -> Instruction,
) -> Option<Vec<u8>> {
    let quiet = |_, block: &DraftBlock| block.mark == Mark::QUIET;
    added(random, draft, quiet, &types, |r| {
        vec![instruction(r[0], r[1])]
    })
}

/// Any promise type.
fn promise(random: &mut Random) -> Type {
    Type::shared(random.pick(&[Kind::QUIET, Kind::REFLECTIVE]))
}

fn peek_added(random: &mut Random, draft: &Draft) -> Option<Vec<u8>> {
    let (promise, x) = (promise(random), random.below(NAMES) as Name);
    added_to_quiet(random, draft, [Type::VALUE, promise], |d, a| {
        Instruction::Peek { d, a, x }
    })
}

fn poke_added(random: &mut Random, draft: &Draft) -> Option<Vec<u8>> {
    let (promise, x) = (promise(random), random.below(NAMES) as Name);
    added_to_quiet(random, draft, [promise, Type::VALUE], |a, e| {
        Instruction::Poke { a, x, e }
    })
}

fn force_added(random: &mut Random, draft: &Draft) -> Option<Vec<u8>> {
    let types = [Type::INTEGER, Type::shared(Kind::REFLECTIVE)];
    added_to_quiet(random, draft, types, |d, a| Instruction::Force { d, a })
}

fn dispatch_added(random: &mut Random, draft: &Draft) -> Option<Vec<u8>> {
    let types = [Type::INTEGER, Type::INTEGER];
    added_to_quiet(random, draft, types, |d, r| Instruction::Dispatch {
        d,
        function: 0,
        mark: Mark::REFLECTIVE,
        returns: Type::INTEGER,
        arguments: vec![(Type::INTEGER, r)],
    })
}

fn called_mark_raised(random: &mut Random, draft: &Draft) -> Option<Vec<u8>> {
    let mut draft = draft.clone();
    let site = site(random, &draft, of_kind(kinds::CALL))?;
    let Instruction::Call {
        function, version, ..
    } = *draft.at(site)
    else {
        return None;
    };
    let called = |v: &&mut DraftVersion| (v.function, v.version) == (function, version);
    let called = draft.versions.iter_mut().find(called)?;
    called.blocks[0].mark = Mark::REFLECTIVE;
    let caller = &draft.versions[site.version].blocks[site.block];
    (caller.mark == Mark::QUIET).then(|| draft.bytes())
}
