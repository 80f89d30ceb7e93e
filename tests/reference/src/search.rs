//! "Dispatch search": how many versions the search of a DISPATCH looks at.

use crate::instruction::Instruction;
use crate::program::{Program, Signature, Version};
use crate::state::State;
use crate::types::{Kind, Level};

/// What the search of a DISPATCH comes to.
#[derive(Clone, Copy, PartialEq, Eq, PartialOrd, Ord, Debug)]
pub struct Search {
    /// The number of the first version that fits; none where none does.
    pub first: Option<u8>,
    /// How many versions the function has.
    pub versions: u8,
}

impl Search {
    /// How many versions are looked at, those passed over for their level too: the
    /// number of the first that fits plus 1, or all of the function where none fits.
    pub fn looked(self) -> u8 {
        self.first.map_or(self.versions, |number| number + 1)
    }
}

impl State {
    /// What the search of the DISPATCH comes to that the state stands at, ended
    /// or not; none where it stands elsewhere, or where an argument has no kind.
    pub fn search(&self, program: &Program) -> Option<Search> {
        let holder = self.version(program, self.activations.last()?.frame)?;
        self.search_at(program, holder.level)
    }

    /// The same, with versions above this level passed over.
    pub fn search_at(&self, program: &Program, level: Level) -> Option<Search> {
        let top = self.activations.last()?;
        let instruction = self.instruction(program)?;
        let Instruction::Dispatch { function, .. } = *instruction else {
            return None;
        };
        let registers = &self.frames.get(top.frame)?.registers;
        let kind = |register| self.kind(program, (*registers.get(usize::from(register))?)?);
        let kinds: Option<Vec<Kind>> = instruction.reads().into_iter().map(kind).collect();
        let found = first_that_fits(program, level, instruction, &kinds?);
        Some(Search {
            first: found.map(|version| version.head.version),
            versions: program.versions_of(function.into()).count() as u8,
        })
    }
}

/// The lowest version that a DISPATCH fits with arguments of these kinds, those above
/// the level passed over; none for other instructions.
pub(crate) fn first_that_fits<'p>(
    program: &'p Program,
    level: Level,
    instruction: &Instruction,
    arguments: &[Kind],
) -> Option<&'p Version> {
    let Instruction::Dispatch { function, .. } = *instruction else {
        return None;
    };
    let signature = program.signature(instruction)?;
    let mut versions = program.versions_of(function.into());
    versions
        .find(|version| version.level <= level && fits(&version.signature(), &signature, arguments))
}

/// Has a version of its own signature equal parameter count and ownerships, equal
/// return ownership, a return within, a mark no greater, and arguments that match?
pub fn fits(own: &Signature, signature: &Signature, arguments: &[Kind]) -> bool {
    own.parameters.len() == signature.parameters.len()
        && own
            .parameters
            .iter()
            .zip(&signature.parameters)
            .all(|(p, s)| p.ownership() == s.ownership())
        && own.returns.ownership() == signature.returns.ownership()
        && own.returns.kind().within(signature.returns.kind())
        && own.mark <= signature.mark
        && arguments
            .iter()
            .zip(&own.parameters)
            .all(|(kind, parameter)| kind.within(parameter.kind()))
}
