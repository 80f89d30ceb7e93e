//! A DISPATCH that no version fits.

use super::Body;
use crate::fact::Fact;
use crate::world::Callable;
use reference::bounds::LISTED;
use reference::program::Signature;
use reference::search::fits;
use reference::{Instruction, Kind, Mark, Register, Type};
use std::collections::BTreeSet;

/// The kinds that values have.
const KINDS: [Kind; 4] = [Kind::INTEGER, Kind::VECTOR, Kind::QUIET, Kind::REFLECTIVE];

impl Body<'_> {
    /// A DISPATCH that no version of its function is expected to fit: those that would
    /// are above the level, an argument is of a kind that none takes, or there are so
    /// many as none has.
    pub(super) fn misfit(&mut self) -> Option<()> {
        let versions = self.versions_to_miss()?;
        let missed = match self.random.below(10) {
            0..=3 => self.miss_by_level(&versions),
            4..=7 => self.miss_by_kind(&versions),
            _ => None,
        };
        missed.or_else(|| self.miss_by_count(&versions))
    }

    /// The versions of a function; each number of versions is as likely as the others.
    fn versions_to_miss(&mut self) -> Option<Vec<Callable>> {
        let functions: BTreeSet<u8> = self.world.iter().map(|c| c.function).collect();
        let of_function = |f| self.world.iter().filter(move |c| c.function == f).cloned();
        let families = functions.into_iter().map(|f| of_function(f).collect());
        let mut families: Vec<Vec<Callable>> = families.collect();
        let counts: BTreeSet<usize> = families.iter().map(Vec::len).collect();
        let counts: Vec<usize> = counts.into_iter().collect();
        let count = self.random.choose(&counts)?;
        families.retain(|family| family.len() == count);
        self.random.choose(&families)
    }

    /// A DISPATCH that a version would fit, but for the kind of one argument.
    fn miss_by_kind(&mut self, versions: &[Callable]) -> Option<()> {
        let mut near = self.random.choose(versions)?.signature;
        if near.parameters.iter().any(|ty| ty.is_owned()) {
            return None;
        }
        near.mark = near.mark.min(self.blocks[self.here.block].mark);
        let mut arguments = self.fitting_arguments(&near.parameters)?;
        let kinds = arguments.iter().map(|&register| self.fact(register).kind());
        let kinds: Vec<Kind> = kinds.collect::<Option<_>>()?;
        let (place, kind) = self.random.choose(&misses(versions, &near, &kinds))?;
        arguments[place] = self.shared(kind)?;
        self.dispatch_in_vain(versions[0].function, &near, arguments)
    }

    /// A DISPATCH that a version would fit, but for its level.
    fn miss_by_level(&mut self, versions: &[Callable]) -> Option<()> {
        let (own, mark) = (self.wish.level, self.blocks[self.here.block].mark);
        let hidden = |c: &&Callable| {
            let owned = c.signature.parameters.iter().any(|ty| ty.is_owned());
            c.level > own && c.signature.mark <= mark && !owned
        };
        let hidden: Vec<&Callable> = versions.iter().filter(hidden).collect();
        let near = self.random.choose(&hidden)?.signature.clone();
        let arguments = self.fitting_arguments(&near.parameters)?;
        self.dispatch_in_vain(versions[0].function, &near, arguments)
    }

    /// A DISPATCH of a function by a signature like this one.
    fn dispatch_in_vain(
        &mut self,
        function: u8,
        near: &Signature,
        arguments: Vec<Register>,
    ) -> Option<()> {
        let signature = self.widened(near, &arguments);
        let d = self.result(&signature, &[])?;
        self.room()?;
        let dispatch = Instruction::Dispatch {
            d,
            function,
            mark: signature.mark,
            returns: signature.returns,
            arguments: signature.parameters.into_iter().zip(arguments).collect(),
        };
        self.emit(dispatch, Fact::Unknown);
        Some(())
    }

    /// A DISPATCH with a count of arguments that no version has.
    fn miss_by_count(&mut self, versions: &[Callable]) -> Option<()> {
        let d = self.integer()?;
        let has = |count| {
            versions
                .iter()
                .any(|c| c.signature.parameters.len() == count)
        };
        let count = (0..=LISTED).find(|&count| !has(count))?;
        let dispatch = Instruction::Dispatch {
            d,
            function: versions[0].function,
            mark: Mark::QUIET,
            returns: Type::INTEGER,
            arguments: vec![(Type::INTEGER, d); count],
        };
        self.emit(dispatch, Fact::MODERATE);
        Some(())
    }
}

/// The places of shared arguments, each with a kind that makes no version fit, where
/// the other arguments are of these kinds.
fn misses(versions: &[Callable], near: &Signature, kinds: &[Kind]) -> Vec<(usize, Kind)> {
    let shared = (0..kinds.len()).filter(|&place| near.parameters[place].is_shared());
    let mut all: Vec<(usize, Kind)> = shared
        .flat_map(|place| KINDS.map(|kind| (place, kind)))
        .collect();
    all.retain(|&(place, kind)| {
        let mut tried = kinds.to_vec();
        tried[place] = kind;
        let fit = |version: &Callable| fits(&version.signature, near, &tried);
        !versions.iter().any(fit)
    });
    all
}
