//! Marks that are higher than needed.

use super::{instructions, Finding};
use crate::place::version_name;
use crate::refusal::vocabulary::instruction_name;
use reference::longest::may_enter;
use reference::program::{Program, Version};
use reference::{Instruction, Kind, Mark};

/// The blocks and DISPATCHes that are marked reflective and need not be.
pub fn high(program: &Program) -> Vec<Finding> {
    let least = Least::of(program);
    let mut findings = Vec::new();
    for (index, version) in program.versions.iter().enumerate() {
        for (number, block) in version.blocks.iter().enumerate() {
            if block.head.mark > least.marks[index][number] {
                let name = version_name(version);
                let words = format!("block {number} of {name} is reflective, and may be quiet");
                findings.push(Finding::at("mark", block.offset, words));
            }
        }
        for (_, placed) in instructions(version) {
            let Instruction::Dispatch { mark, .. } = placed.item else {
                continue;
            };
            if mark > least.effect(version, &placed.item) {
                let name = instruction_name(&placed.item);
                let words = format!("{name} is reflective, and all that it may pick are quiet");
                findings.push(Finding::at("mark", placed.offset, words));
            }
        }
    }
    findings
}

/// The least marks that cover the effects of a program's blocks, all together.
struct Least<'p> {
    program: &'p Program,
    /// By version and block.
    marks: Vec<Vec<Mark>>,
}

impl<'p> Least<'p> {
    /// Those of a program: from quiet on, raised until they cover.
    fn of(program: &'p Program) -> Least<'p> {
        let mut least = Least {
            program,
            marks: pinned(program),
        };
        while least.raise() {}
        least
    }

    /// Raises marks that do not cover; whether there were any.
    fn raise(&mut self) -> bool {
        let mut raised = false;
        for (index, version) in self.program.versions.iter().enumerate() {
            for (number, placed) in instructions(version) {
                let effect = self.effect(version, &placed.item);
                raised |= effect > self.marks[index][number];
                let mark = &mut self.marks[index][number];
                *mark = effect.max(*mark);
            }
        }
        raised
    }

    /// The effect of an instruction under these marks.
    fn effect(&self, version: &Version, instruction: &Instruction) -> Mark {
        match *instruction {
            Instruction::Peek { .. } | Instruction::Poke { .. } => Mark::REFLECTIVE,
            Instruction::Force { a, .. } if version.type_of(a).kind() == Kind::REFLECTIVE => {
                Mark::REFLECTIVE
            }
            Instruction::Call { .. } | Instruction::Dispatch { .. } => {
                let entered = may_enter(self.program, version, instruction).into_iter();
                let marks = entered.map(|index| self.marks[index][0]);
                marks.max().unwrap_or(Mark::QUIET)
            }
            _ => Mark::QUIET,
        }
    }
}

/// The marks that say more than the effect, and quiet for the others: of a version that
/// a quiet DISPATCH passes over for its mark, and of promise blocks where a DISPATCH
/// tells promises apart.
fn pinned(program: &Program) -> Vec<Vec<Mark>> {
    let dispatches = || {
        let all = program.versions.iter().flat_map(instructions);
        all.filter_map(|(_, placed)| match &placed.item {
            Instruction::Dispatch {
                function,
                mark,
                arguments,
                ..
            } => Some((*function, *mark, arguments)),
            _ => None,
        })
    };
    let passed =
        |function: u8| dispatches().any(|(to, mark, _)| to == function && mark == Mark::QUIET);
    let may_be_promise = |kind: Kind| kind == Kind::ANY || kind.within(Kind::REFLECTIVE);
    let mut arguments = dispatches().flat_map(|(_, _, arguments)| arguments);
    let told_apart = arguments.any(|&(ty, _)| may_be_promise(ty.kind()));
    let mark = |version: &Version, number: usize| {
        let pinned = match number {
            0 => passed(version.head.function),
            _ => told_apart,
        };
        match pinned {
            true => version.blocks[number].head.mark,
            false => Mark::QUIET,
        }
    };
    let versions = program.versions.iter();
    versions
        .map(|version| {
            (0..version.blocks.len())
                .map(|number| mark(version, number))
                .collect()
        })
        .collect()
}
