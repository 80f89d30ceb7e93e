//! Registers that nothing reads, and results that are overwritten unread.

use super::reach::Reach;
use super::{instructions, Finding};
use crate::place::{place, version_name};
use crate::refusal::vocabulary::instruction_name;
use crate::source::Source;
use reference::program::{Block, Program, Version};
use reference::record::Placed;
use reference::{Instruction, Register};
use std::collections::BTreeSet;

/// A set of registers.
type Registers = BTreeSet<Register>;

/// The registers that a block reads, its result among them.
fn read_in(block: &Block) -> Registers {
    let instructions = block.instructions.iter();
    let reads = instructions.flat_map(|placed| placed.item.reads());
    reads.chain([block.head.result]).collect()
}

/// Is an instruction there for more than its result?
fn has_effects(instruction: &Instruction) -> bool {
    matches!(
        instruction,
        Instruction::Call { .. } | Instruction::Dispatch { .. } | Instruction::Force { .. }
    )
}

/// The registers that nothing reads.
pub fn unread(source: &Source, program: &Program, reach: &Reach) -> Vec<Finding> {
    let mut findings = Vec::new();
    for (index, version) in program.versions.iter().enumerate() {
        let read: Registers = version.blocks.iter().flat_map(read_in).collect();
        let first = match reach.called_only(index) {
            true => 0,
            false => version.head.parameters,
        };
        let declared = 0..u8::try_from(version.head.types.len()).unwrap_or(u8::MAX);
        for register in declared.filter(|register| *register >= first && !read.contains(register)) {
            findings.extend(unread_register(source, version, register));
        }
    }
    findings
}

/// What is found of a register that nothing reads: unless it only takes what calls and
/// forces give.
fn unread_register(source: &Source, version: &Version, register: Register) -> Option<Finding> {
    let assigned = instructions(version).filter(|(_, placed)| {
        let item = &placed.item;
        item.destination() == Some(register)
    });
    let assigned: Vec<&Instruction> = assigned.map(|(_, placed)| &placed.item).collect();
    if !assigned.is_empty() && assigned.iter().all(|item| has_effects(item)) {
        return None;
    }
    let (name, called) = (
        version_name(version),
        source.registers(version).text(register),
    );
    let words = match assigned.len() {
        0 if register < version.head.parameters => {
            format!("parameter {called} of {name} is never read")
        }
        0 => format!("{called} of {name} is never used"),
        _ => format!("{called} of {name} is assigned and never read"),
    };
    Some(Finding {
        position: source.declared(version, register.into()),
        ..Finding::at("unread", version.offset, words)
    })
}

/// The instructions whose results are overwritten, or dropped at a block's end, unread.
pub fn overwritten(source: &Source, program: &Program) -> Vec<Finding> {
    let mut findings = Vec::new();
    for version in &program.versions {
        let read: Vec<Registers> = version.blocks.iter().map(read_in).collect();
        for (number, block) in version.blocks.iter().enumerate() {
            let others = read
                .iter()
                .enumerate()
                .filter(|&(other, _)| other != number);
            let elsewhere: Registers = others.flat_map(|(_, read)| read.clone()).collect();
            let kept: Registers = &elsewhere | &read[number];
            let dead = dead_results(block, &elsewhere);
            let dead = dead.into_iter().filter(|&(_, d)| kept.contains(&d));
            findings.extend(dead.map(|(index, d)| {
                let called = source.registers(version).text(d);
                dropped(source, block, index, (d, &called))
            }));
        }
    }
    findings
}

/// The instructions of a block whose results nothing reads, by number, with their d;
/// what is read elsewhere is needed at all times.
fn dead_results(block: &Block, elsewhere: &Registers) -> Vec<(usize, Register)> {
    let instructions = &block.instructions;
    let mut at_end = elsewhere.clone();
    at_end.insert(block.head.result);
    let mut needed = vec![at_end; instructions.len() + 1];
    let mut dead = Vec::new();
    for (index, placed) in instructions.iter().enumerate().rev() {
        let mut after = needed[index + 1].clone();
        if let Instruction::Skip { n, .. } = placed.item {
            let target = index + 1 + usize::from(n);
            after.extend(needed.get(target).into_iter().flatten());
        }
        if let Some(d) = placed.item.destination() {
            let read = after.contains(&d) || elsewhere.contains(&d);
            if !read && !has_effects(&placed.item) {
                dead.push((index, d));
            }
            after.remove(&d);
        }
        after.extend(elsewhere);
        after.extend(placed.item.reads());
        needed[index] = after;
    }
    dead.reverse();
    dead
}

/// What is found of an instruction whose result nothing reads.
fn dropped(source: &Source, block: &Block, index: usize, d: (Register, &str)) -> Finding {
    let (d, called) = d;
    let Placed { offset, item } = &block.instructions[index];
    let mut later = block.instructions[index + 1..].iter();
    let again = later.find(|placed| placed.item.destination() == Some(d));
    let name = instruction_name(item);
    let words = match again {
        Some(again) => {
            let (again, at) = (instruction_name(&again.item), place(source, again.offset));
            format!(
                "what {name} gives {called} is not read before {again} at {at} assigns it again"
            )
        }
        None => format!("what {name} gives {called} is not read before the block ends"),
    };
    Finding::at("overwritten", *offset, words)
}
