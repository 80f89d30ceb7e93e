//! What is wrong with a text, and where.

use std::fmt;

/// A line that cannot be assembled.
#[derive(Clone, PartialEq, Eq, Debug)]
pub struct Error {
    /// The line's number, the first being 1.
    pub line: usize,
    /// The column of what is wrong in it, the first being 1.
    pub column: usize,
    /// What is wrong with it.
    pub reason: String,
}

impl fmt::Display for Error {
    fn fmt(&self, formatter: &mut fmt::Formatter) -> fmt::Result {
        write!(formatter, "line {}: {}", self.line, self.reason)
    }
}

impl std::error::Error for Error {}
