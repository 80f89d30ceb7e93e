//! "Flow": what a version reads before assigning, assigns, empties and captures.

use crate::instruction::{Instruction, Register};
use crate::program::{Program, Version};
use crate::record::Placed;
use std::collections::BTreeSet;

/// A set of registers.
pub type Registers = BTreeSet<Register>;

/// An action: four register sets.
#[derive(Clone, Default, PartialEq, Eq, Debug)]
pub struct Action {
    /// R: read before assigned.
    pub reads: Registers,
    /// W: assigned.
    pub assigns: Registers,
    /// U: emptied, and not filled again.
    pub empties: Registers,
    /// C: captured.
    pub captures: Registers,
}

impl Action {
    /// The action that reads these registers.
    fn reading(registers: impl IntoIterator<Item = Register>) -> Action {
        Action {
            reads: registers.into_iter().collect(),
            ..Action::default()
        }
    }

    /// A, then a single instruction A′: none unless U meets none of R′, U′, C′ and
    /// C does not meet U′; else (R ∪ (R′ − W), W ∪ W′, (U ∪ U′) − W′, C ∪ C′), for
    /// what the instruction assigns is filled again.
    pub fn then(mut self, next: &Action) -> Option<Action> {
        let emptied_before = [&next.reads, &next.empties, &next.captures];
        let allowed = emptied_before
            .iter()
            .all(|set| self.empties.is_disjoint(set))
            && self.captures.is_disjoint(&next.empties);
        if !allowed {
            return None;
        }
        self.reads.extend(&next.reads - &self.assigns);
        self.assigns.extend(&next.assigns);
        self.empties = &(&self.empties | &next.empties) - &next.assigns;
        self.captures.extend(&next.captures);
        Some(self)
    }

    /// The two ways of a SKIP joined after its part: R, U and C by union, W by
    /// what both assign.
    fn join(mut self, other: &Action) -> Action {
        self.reads.extend(&other.reads);
        self.assigns = &self.assigns & &other.assigns;
        self.empties.extend(&other.empties);
        self.captures.extend(&other.captures);
        self
    }

    /// What PROM yields for its block's action: (R, ∅, U, R ∪ W ∪ U ∪ C).
    fn delayed(&self) -> Action {
        Action {
            reads: self.reads.clone(),
            assigns: Registers::new(),
            empties: self.empties.clone(),
            captures: &(&self.reads | &self.assigns) | &(&self.empties | &self.captures),
        }
    }
}

/// Question 10: does flow hold?
pub fn question10(program: &Program) -> Result<(), usize> {
    for version in &program.versions {
        body_action(program, version).ok_or(version.offset)?;
    }
    Ok(())
}

/// The action of a version's body; none if flow does not hold.
pub fn body_action(program: &Program, version: &Version) -> Option<Action> {
    let action = block_action(program, version, 0)?;
    let parameters = version.head.parameters;
    action
        .reads
        .iter()
        .all(|&register| register < parameters)
        .then_some(action)
}

/// The action of a block: its instructions in order, then its result register is read.
fn block_action(program: &Program, version: &Version, number: u8) -> Option<Action> {
    let block = &version.blocks[usize::from(number)];
    let start = Action::default();
    let action = part_action(program, version, &block.instructions, start)?;
    action.then(&Action::reading([block.head.result]))
}

/// What stands before a part, then its instructions in order. Behind a SKIP the
/// flow follows both ways: through the part that it may pass over, and past it.
fn part_action(
    program: &Program,
    version: &Version,
    mut instructions: &[Placed<Instruction>],
    before: Action,
) -> Option<Action> {
    let mut action = before;
    while let [first, rest @ ..] = instructions {
        action = action.then(&instruction_action(program, version, &first.item)?)?;
        instructions = rest;
        if let Instruction::Skip { n, .. } = first.item {
            let (part, behind) = rest.split_at_checked(usize::from(n))?;
            let through = part_action(program, version, part, action.clone())?;
            action = action.join(&through);
            instructions = behind;
        }
    }
    Some(action)
}

/// The action of an instruction: it reads and captures, then empties, then assigns.
fn instruction_action(
    program: &Program,
    version: &Version,
    instruction: &Instruction,
) -> Option<Action> {
    let before = match *instruction {
        Instruction::Prom { block, .. } => block_action(program, version, block)?.delayed(),
        _ => Action::reading(instruction.reads()),
    };
    let emptied = program.emptied(instruction).into_iter().collect();
    Some(Action {
        assigns: instruction.assigns().into_iter().collect(),
        empties: &before.empties | &emptied,
        ..before
    })
}
