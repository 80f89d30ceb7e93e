//! Question 7: what is named and does not exist.

use super::vocabulary::instruction_name;
use super::{Found, FoundRecord};
use crate::number::{below, many};
use crate::place::place;
use crate::source::Source;
use reference::bounds::NAMES;
use reference::Instruction;

/// Question 7: what a record names that does not exist.
pub fn existence(source: &Source, found: &Found) -> Option<String> {
    match found.record {
        FoundRecord::Version => None,
        FoundRecord::Block(number, block) => {
            let result = block.head.result;
            if found.version.declares(result) {
                named_once(source, found, number)
            } else {
                let why = declared(found);
                Some(format!("BLOCK {number} gives r{result}, and {why}"))
            }
        }
        FoundRecord::Instruction(own, instruction) => {
            let why = missing(found, own, instruction)?;
            Some(format!("{} {why}", instruction_name(instruction)))
        }
    }
}

/// Which registers the version declares.
fn declared(found: &Found) -> String {
    let registers = below(found.version.head.types.len(), "r");
    format!("{} declares {registers}", found.version_name())
}

/// Why a block is not named by exactly one PROM.
fn named_once(source: &Source, found: &Found, number: usize) -> Option<String> {
    let instructions = found.version.blocks.iter().flat_map(|b| &b.instructions);
    let proms = instructions.filter_map(|placed| match placed.item {
        Instruction::Prom { block, .. } if usize::from(block) == number => Some(placed.offset),
        _ => None,
    });
    let proms: Vec<String> = proms.map(|offset| place(source, offset)).collect();
    match proms.len() {
        _ if number == 0 => None,
        0 => Some(format!("BLOCK {number} is named by no PROM, and needs one")),
        1 => None,
        count => Some(format!(
            "BLOCK {number} is named by {count} PROMs, at {}, and needs one",
            proms.join(" and ")
        )),
    }
}

/// What an instruction names that does not exist, and what does.
fn missing(found: &Found, own: usize, instruction: &Instruction) -> Option<String> {
    let mut registers = instruction.reads();
    registers.extend(instruction.assigns());
    if let Some(register) = registers.into_iter().find(|&r| !found.version.declares(r)) {
        let why = declared(found);
        return Some(format!("names r{register}, and {why}"));
    }
    if let Some(name) = instruction.name().filter(|&x| usize::from(x) >= NAMES) {
        return Some(format!(
            "names x{name}, and names are {}",
            below(NAMES, "x")
        ));
    }
    match *instruction {
        Instruction::Prom { block, .. } => missing_block(found, own, block.into()),
        Instruction::Call {
            function,
            version,
            ref arguments,
            ..
        } => missing_version(found, function, version, arguments.len()),
        Instruction::Dispatch { function, .. } => missing_function(found, function),
        _ => None,
    }
}

/// Why a PROM in block `own` does not name a block.
fn missing_block(found: &Found, own: usize, block: usize) -> Option<String> {
    let blocks = found.version.blocks.len();
    if block >= blocks {
        let name = found.version_name();
        Some(format!(
            "names block {block}, and {name} has {}",
            many(blocks, "block")
        ))
    } else if block <= own {
        Some(format!(
            "names block {block}, which is not above its own, {own}"
        ))
    } else {
        None
    }
}

/// Why a CALL with so many arguments does not name a version.
fn missing_version(found: &Found, function: u8, version: u8, given: usize) -> Option<String> {
    if let Some(why) = missing_function(found, function) {
        return Some(why);
    }
    match found.program.version(function.into(), version.into()) {
        None => {
            let count = found.program.versions_of(function.into()).count();
            let has = many(count, "version");
            Some(format!(
                "names {function}.{version}, and function {function} has {has}"
            ))
        }
        Some(called) => {
            let takes = called.parameters().len();
            let has = many(takes, "parameter");
            (takes != given).then(|| {
                format!(
                    "has {}, and {function}.{version} has {has}",
                    many(given, "argument")
                )
            })
        }
    }
}

/// Words for a function that does not exist.
fn missing_function(found: &Found, function: u8) -> Option<String> {
    let exists = found.program.versions_of(function.into()).next().is_some();
    let last = found.program.versions.last()?.head.function;
    (!exists).then(|| format!("names function {function}, and the last function is {last}"))
}
