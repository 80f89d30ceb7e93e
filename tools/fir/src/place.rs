//! Places of an image in words.

use crate::source::Source;
use reference::program::Version;
use std::fmt;

/// A place of a text, both numbers counted from 1.
#[derive(Clone, Copy, PartialEq, Eq, Debug)]
pub struct Position {
    /// The line.
    pub line: usize,
    /// The column, in characters.
    pub column: usize,
}

impl fmt::Display for Position {
    fn fmt(&self, formatter: &mut fmt::Formatter) -> fmt::Result {
        write!(formatter, "{}:{}", self.line, self.column)
    }
}

/// What a message of a file begins with, so that editors find the place: `pump.fir:12:5: `
/// in a text, else the given words.
pub fn beginning(name: &str, position: Option<Position>, otherwise: &str) -> String {
    match position {
        Some(position) => format!("{name}:{position}: "),
        None => otherwise.to_string(),
    }
}

/// An offset, with the line of the text if there is one: `37 (line 12)`.
pub fn place(source: &Source, offset: usize) -> String {
    match source.line(offset) {
        Some(line) => format!("{offset} (line {line})"),
        None => format!("{offset}"),
    }
}

/// A version's numbers: `0.0`.
pub fn version_name(version: &Version) -> String {
    format!("{}.{}", version.head.function, version.head.version)
}
