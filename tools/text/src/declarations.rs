//! Where the registers of a version are declared in a text, and the words of their types.

use std::collections::BTreeMap;
use std::ops::Range;

/// Some words of a text.
#[derive(Clone, PartialEq, Eq, Debug)]
pub struct Words {
    /// The line that they stand in, counted from 1.
    pub line: usize,
    /// The column of the first, counted from 1.
    pub column: usize,
    /// Their bytes in the text.
    pub bytes: Range<usize>,
}

/// A register as a text declares it.
#[derive(Clone, PartialEq, Eq, Debug)]
pub struct Declaration {
    /// The line, counted from 1.
    pub line: usize,
    /// The column of its name or number, counted from 1.
    pub column: usize,
    /// The words of its type.
    pub ty: Words,
}

/// The registers of all versions as a text declares them, by function and version.
#[derive(Clone, Default, PartialEq, Eq, Debug)]
pub struct Declarations(BTreeMap<(u8, u8), Vec<Declaration>>);

impl Declarations {
    /// That of a register; none where the version does not declare it.
    pub fn of(&self, function: u8, version: u8, register: u8) -> Option<&Declaration> {
        let declared = self.0.get(&(function, version))?;
        declared.get(usize::from(register))
    }

    /// Adds those of a version.
    pub(crate) fn add(&mut self, function: u8, version: u8, declared: Vec<Declaration>) {
        self.0.insert((function, version), declared);
    }
}

/// A line without its comment.
fn code(line: &str) -> &str {
    line.split('#').next().unwrap_or_default()
}

/// The two digits of a byte in a `bytes` line, by its place among the bytes there; none
/// where the line is another one.
pub fn byte_digits(text: &str, number: usize, place: usize) -> Option<Words> {
    let line = line(text, number)?;
    let bytes = code(line).trim_start().strip_prefix("bytes")?;
    let digits = bytes.split_whitespace().nth(place)?;
    let first = digits.as_ptr() as usize - line.as_ptr() as usize;
    let digits = first..first + digits.len();
    Some(Words::within(text, line, number, digits))
}

/// The line of a number, counted from 1.
fn line(text: &str, number: usize) -> Option<&str> {
    text.lines().nth(number.checked_sub(1)?)
}

impl Words {
    /// Those that stand at these bytes of a line of a text, whose number is given.
    pub(crate) fn within(text: &str, line: &str, number: usize, bytes: Range<usize>) -> Words {
        let before = line.as_ptr() as usize - text.as_ptr() as usize;
        Words {
            line: number,
            column: 1 + line[..bytes.start].chars().count(),
            bytes: before + bytes.start..before + bytes.end,
        }
    }
}
