//! The words for kinds, ownerships, levels, marks and operations.

use reference::kinds;
use reference::{Level, Mark, Type};

/// The words of the kinds, by number.
pub const KINDS: [&[&str]; 6] = [
    &["any"],
    &["value"],
    &["int"],
    &["vector"],
    &["quiet", "promise"],
    &["reflective", "promise"],
];

/// The words of the ownerships, by number; shared has none.
pub const OWNERSHIPS: [&[&str]; 3] = [&[], &["own"], &["borrow"]];

/// The words of the levels, by number.
pub const LEVELS: [&str; Level::ALL.len()] = ["portal", "staff", "factory"];

/// The words of the marks, by number.
pub const MARKS: [&str; 2] = ["quiet", "reflective"];

/// The words of ARITH's operations, by number.
pub const OPERATIONS: [&str; kinds::OPERATIONS as usize] = ["add", "sub", "mul", "div", "less"];

/// Every word that has a meaning of its own, so that no register is called so.
pub const KEYWORDS: [&str; 47] = [
    "version",
    "registers",
    "level",
    "block",
    "bytes",
    "parameters",
    "blocks",
    "count",
    "any",
    "value",
    "int",
    "vector",
    "promise",
    "own",
    "borrow",
    "portal",
    "staff",
    "factory",
    "quiet",
    "reflective",
    "mark",
    "lit",
    "move",
    "use",
    "dup",
    "vec",
    "len",
    "get",
    "set",
    "arith",
    "add",
    "sub",
    "mul",
    "div",
    "less",
    "select",
    "cast",
    "named",
    "store",
    "prom",
    "force",
    "peek",
    "poke",
    "call",
    "dispatch",
    "skip",
    "unless",
];

/// A type in words, or as a byte where it has none.
pub fn type_text(ty: Type) -> String {
    let ownership = OWNERSHIPS.get(usize::from(ty.ownership().0));
    let kind = KINDS.get(usize::from(ty.kind().0));
    match (ownership, kind) {
        (Some(ownership), Some(kind)) => [*ownership, *kind].concat().join(" "),
        _ => format!("0x{:02X}", ty.0),
    }
}

/// A level's word, or its number where it has none.
pub fn level_text(level: Level) -> String {
    match LEVELS.get(usize::from(level.0)) {
        Some(word) => (*word).to_string(),
        None => level.0.to_string(),
    }
}

/// A mark in words, or by number where it has none.
pub fn mark_text(mark: Mark) -> String {
    match MARKS.get(usize::from(mark.0)) {
        Some(word) => (*word).to_string(),
        None => format!("mark {}", mark.0),
    }
}

/// An operation's word, or `arith` and its number where it has none.
pub fn operation_text(op: u8) -> String {
    match OPERATIONS.get(usize::from(op)) {
        Some(word) => (*word).to_string(),
        None => format!("arith {op}"),
    }
}
