//! Questions 11 and 12: the version that a run enters, and its arguments.

use super::vocabulary::type_words;
use crate::arguments::Argument;
use crate::number::many;
use crate::place::version_name;
use crate::source::Source;
use library::{Entry, FIR_ITEMS};
use reference::program::Program;
use reference::{Kind, Type};

/// Question 11: which versions there are in place of one that does not exist.
pub fn entry(image: &[u8], entry: Entry) -> Option<String> {
    let program = Program::ordered(image).ok()?;
    let Entry { function, version } = entry;
    if program.version(function, version).is_some() {
        return None;
    }
    let count = program.versions_of(function).count();
    Some(if count > 0 {
        let has = many(count, "version");
        format!("there is no version {function}.{version}, function {function} has {has}")
    } else {
        let last = program.versions.last()?.head.function;
        format!("there is no function {function}, the last function is {last}")
    })
}

/// Question 12: which argument does not match its parameter.
pub fn arguments(source: &Source, entry: Entry, given: &[Argument]) -> Option<String> {
    let program = Program::ordered(&source.image).ok()?;
    let version = program.version(entry.function, entry.version)?;
    let name = version_name(version);
    let parameters = version.parameters();
    for (register, (&parameter, argument)) in (0..).zip(parameters.iter().zip(given)) {
        if let Some(why) = mismatch(parameter, argument) {
            let register = source.registers(version).text(register);
            return Some(format!("parameter {register} of {name} {why}"));
        }
    }
    let (takes, got) = (parameters.len(), given.len());
    (takes != got).then(|| {
        let (takes, got) = (many(takes, "parameter"), many(got, "argument"));
        format!("{name} has {takes}, and got {got}")
    })
}

/// Why an argument does not match a parameter.
fn mismatch(parameter: Type, argument: &Argument) -> Option<String> {
    let (is, got) = (type_words(parameter), argument.described());
    let kind = match argument {
        Argument::Integer(_) => Kind::INTEGER,
        Argument::Vector(items) if items.len() > FIR_ITEMS => {
            return Some(format!("got {got}, and {FIR_ITEMS} are the most"));
        }
        Argument::Vector(_) => Kind::VECTOR,
    };
    if parameter.kind().within(Kind::REFLECTIVE) {
        Some(format!("is {is}, which no argument matches, and got {got}"))
    } else if !kind.within(parameter.kind()) {
        Some(format!("is {is}, and got {got}"))
    } else {
        None
    }
}
