//! Why no version of a function fits a DISPATCH.

use super::cause::held;
use super::changes::value;
use super::spot::Spot;
use crate::number::many;
use crate::place::version_name;
use crate::refusal::noun;
use library::{Held, State};
use reference::program::{Signature, Version};
use reference::{Instruction, Kind, Register};
use text::level_text;

/// A DISPATCH that is done in a state.
struct Search<'s> {
    state: &'s State,
    spot: &'s Spot<'s>,
    /// What it asks for.
    signature: Signature,
    /// The registers of its arguments.
    registers: Vec<u8>,
}

/// Words for a DISPATCH that no version of a function fits, with the reason of each.
pub fn no_fit(state: &State, spot: &Spot, instruction: &Instruction) -> Option<String> {
    let Instruction::Dispatch { function, .. } = *instruction else {
        return None;
    };
    let search = Search {
        state,
        spot,
        signature: spot.script.program.signature(instruction)?,
        registers: instruction.reads(),
    };
    let versions = spot.script.program.versions_of(function.into());
    let reasons = versions.map(|version| {
        let reason = search.reason(version);
        let reason = reason.unwrap_or_else(|| "does not fit".to_string());
        format!("{} {reason}", version_name(version))
    });
    let reasons: Vec<String> = reasons.collect();
    let reasons = reasons.join("; ");
    Some(format!("no version of function {function} fits: {reasons}"))
}

impl Search<'_> {
    /// The first reason for which a version does not fit.
    fn reason(&self, version: &Version) -> Option<String> {
        let own = version.signature();
        self.level(version)
            .or_else(|| self.count(&own))
            .or_else(|| self.ownership(version, &own))
            .or_else(|| self.returns(&own))
            .or_else(|| self.mark(&own))
            .or_else(|| self.kinds(version, &own))
    }

    /// What the text calls a parameter of a version.
    fn called(&self, version: &Version, parameter: Register) -> String {
        let names = self.spot.script.names;
        let registers = names.of(version.head.function, version.head.version);
        registers.text(parameter)
    }

    /// Its level is above that of the DISPATCH's own version.
    fn level(&self, version: &Version) -> Option<String> {
        let (level, own) = (version.level, self.spot.version.level);
        let (is, below) = (level_text(level), level_text(own));
        (level > own).then(|| format!("is of level {is}, above {below}"))
    }

    /// It has more or fewer parameters than there are arguments.
    fn count(&self, own: &Signature) -> Option<String> {
        let (has, given) = (own.parameters.len(), self.signature.parameters.len());
        let verb = if given == 1 { "is" } else { "are" };
        let (parameters, arguments) = (many(has, "parameter"), many(given, "argument"));
        (has != given).then(|| format!("has {parameters}, and {arguments} {verb} given"))
    }

    /// A parameter is of another ownership than its argument.
    fn ownership(&self, version: &Version, own: &Signature) -> Option<String> {
        let pairs = own.parameters.iter().zip(&self.signature.parameters);
        let mut pairs = (0..).zip(pairs);
        let differs = pairs.find(|(_, (own, given))| own.ownership() != given.ownership());
        let (place, (&takes, &given)) = differs?;
        let (takes, given) = (noun(takes), noun(given));
        let place = self.called(version, place);
        Some(format!("takes {takes} as {place}, and is given {given}"))
    }

    /// What it returns is not within what is asked for.
    fn returns(&self, own: &Signature) -> Option<String> {
        let (returns, asked) = (own.returns, self.signature.returns);
        let fits = returns.ownership() == asked.ownership() && returns.kind().within(asked.kind());
        let (returns, asked) = (noun(returns), noun(asked));
        (!fits).then(|| format!("returns {returns}, and {asked} is asked for"))
    }

    /// It is reflective, and the DISPATCH is not.
    fn mark(&self, own: &Signature) -> Option<String> {
        let reflective = own.mark > self.signature.mark;
        reflective.then(|| "is reflective, and the DISPATCH is quiet".to_string())
    }

    /// An argument is not within the kind of its parameter.
    fn kinds(&self, version: &Version, own: &Signature) -> Option<String> {
        let mut pairs = (0..).zip(own.parameters.iter().zip(&self.registers));
        pairs.find_map(|(place, (&takes, &register))| {
            let given = held(self.state, self.spot, register)?;
            let fits = self.kind(given)?.within(takes.kind());
            let (takes, given) = (noun(takes), value(self.state, given));
            let (place, register) = (self.called(version, place), self.spot.called(register));
            (!fits).then(|| format!("takes {takes} as {place}, and {register} holds {given}"))
        })
    }

    /// The kind of what a register holds.
    fn kind(&self, held: Held) -> Option<Kind> {
        match held {
            Held::Nothing => None,
            Held::Integer(_) => Some(Kind::INTEGER),
            Held::Vector(_) => Some(Kind::VECTOR),
            Held::Promise(place) => {
                let promise = self.state.promise(place)?;
                let (function, version) = self.state.owner(promise.call)?;
                let version = self
                    .spot
                    .script
                    .program
                    .version(function.into(), version.into())?;
                Some(version.blocks.get(promise.block)?.head.mark.promise())
            }
        }
    }
}
