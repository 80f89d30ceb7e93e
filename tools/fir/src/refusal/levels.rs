//! Questions 18 and 19: which call goes up, and which entry is above the run's level.

use super::vocabulary::instruction_name;
use super::{Found, FoundRecord};
use crate::place::version_name;
use library::Entry;
use reference::program::Program;
use reference::{Instruction, Level};
use text::level_text;

/// Question 18: the levels of a CALL's version and of the one that it names.
pub fn call(found: &Found) -> Option<String> {
    let FoundRecord::Instruction(_, instruction) = found.record else {
        return None;
    };
    let Instruction::Call {
        function, version, ..
    } = *instruction
    else {
        return None;
    };
    let called = found.program.version(function.into(), version.into())?;
    let own = found.version;
    (called.level > own.level).then(|| {
        let (name, own_name) = (instruction_name(instruction), found.version_name());
        let (level, own_level) = (level_text(called.level), level_text(own.level));
        let called = version_name(called);
        format!("{name} goes up: {own_name} is of level {own_level}, and {called} of {level}")
    })
}

/// Question 19: the level of an entry, and the one that the run states.
pub fn entry(image: &[u8], entry: Entry, stated: usize) -> Option<String> {
    let program = Program::ordered(image).ok()?;
    let version = program.version(entry.function, entry.version)?;
    let stated = Level::stated(stated);
    (version.level > stated).then(|| {
        let (name, level) = (version_name(version), level_text(version.level));
        let stated = level_text(stated);
        format!("{name} is of level {level}, and the run states {stated}")
    })
}
