//! The arguments of a run: integers and vectors, and the words that they make.

use crate::number::many;
use std::fmt;

/// An argument.
#[derive(Clone, PartialEq, Eq, Debug)]
pub enum Argument {
    /// Such as `-7`.
    Integer(i64),
    /// Such as `[1,2,3]`.
    Vector(Vec<i64>),
}

impl Argument {
    /// The argument that a word of the command line stands for.
    pub fn parse(text: &str) -> Result<Argument, String> {
        let Some(open) = text.strip_prefix('[') else {
            return integer(text).map(Argument::Integer);
        };
        let items = open.strip_suffix(']');
        let items = items.ok_or_else(|| format!("`{text}` has no `]` at its end"))?;
        if items.trim().is_empty() {
            return Ok(Argument::Vector(Vec::new()));
        }
        let items: Result<Vec<i64>, String> = items.split(',').map(integer).collect();
        items.map(Argument::Vector)
    }

    /// The words of the argument, as a run is begun with them.
    fn words(&self) -> Vec<i64> {
        match self {
            Argument::Integer(integer) => vec![-1, *integer],
            Argument::Vector(items) => {
                let length = i64::try_from(items.len()).unwrap_or(i64::MAX);
                [&[length], &items[..]].concat()
            }
        }
    }

    /// The argument with its kind, for a message.
    pub fn described(&self) -> String {
        match self {
            Argument::Integer(integer) => format!("the integer {integer}"),
            Argument::Vector(items) if items.len() > library::FIR_ITEMS => {
                format!("a vector of {}", many(items.len(), "item"))
            }
            Argument::Vector(_) => format!("the vector {self}"),
        }
    }
}

impl fmt::Display for Argument {
    fn fmt(&self, formatter: &mut fmt::Formatter) -> fmt::Result {
        match self {
            Argument::Integer(integer) => write!(formatter, "{integer}"),
            Argument::Vector(items) => write!(formatter, "{items:?}"),
        }
    }
}

/// The words of arguments, one after another.
pub fn words(arguments: &[Argument]) -> Vec<i64> {
    arguments.iter().flat_map(Argument::words).collect()
}

/// An integer of 64 bits.
fn integer(text: &str) -> Result<i64, String> {
    let text = text.trim();
    text.parse().map_err(|_| {
        format!(
            "`{text}` is no integer of {} to {}; write 7, -7 or [1,2,3]",
            i64::MIN,
            i64::MAX
        )
    })
}
