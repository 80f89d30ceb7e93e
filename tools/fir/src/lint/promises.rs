//! Promises that nothing forces.

use super::{instructions, Finding};
use crate::source::Source;
use reference::longest::may_enter;
use reference::program::Program;
use reference::{Instruction, Register};
use std::collections::BTreeSet;

/// Registers by the place of their version in the program.
type Used = BTreeSet<(usize, Register)>;

/// The PROMs whose promise nothing forces, peeks at or pokes.
pub fn unforced(source: &Source, program: &Program) -> Vec<Finding> {
    let used = used(program);
    let mut findings = Vec::new();
    for (index, version) in program.versions.iter().enumerate() {
        for (_, placed) in instructions(version) {
            let Instruction::Prom { d, block } = placed.item else {
                continue;
            };
            if !used.contains(&(index, d)) {
                let d = source.registers(version).text(d);
                let words = format!("nothing forces the promise of block {block}, in {d}");
                findings.push(Finding::at("unforced", placed.offset, words));
            }
        }
    }
    findings
}

/// The registers whose promise is used: at once, or through what takes it over.
fn used(program: &Program) -> Used {
    let mut used = Used::new();
    loop {
        let before = used.len();
        for (index, version) in program.versions.iter().enumerate() {
            for (_, placed) in instructions(version) {
                let more = used_by(program, &used, index, &placed.item);
                used.extend(more.into_iter().map(|register| (index, register)));
            }
        }
        if used.len() == before {
            return used;
        }
    }
}

/// The registers of a version whose promise an instruction uses, as far as is known.
fn used_by(program: &Program, used: &Used, index: usize, item: &Instruction) -> Vec<Register> {
    match *item {
        Instruction::Force { a, .. }
        | Instruction::Peek { a, .. }
        | Instruction::Poke { a, .. } => vec![a],
        Instruction::Move { d, a } | Instruction::Cast { d, a } => match used.contains(&(index, d))
        {
            true => vec![a],
            false => vec![],
        },
        _ => {
            let entered = may_enter(program, &program.versions[index], item);
            let arguments = (0..).zip(item.reads());
            let given = arguments.filter(|(parameter, _)| {
                let mut entered = entered.iter();
                entered.any(|&callee| used.contains(&(callee, *parameter)))
            });
            given.map(|(_, register)| register).collect()
        }
    }
}
