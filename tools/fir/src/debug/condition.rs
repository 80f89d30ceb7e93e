//! What the debugger shows and compares: registers, names, items of vectors, and integers.

use super::session::Session;
use crate::trace;
use library::{Held, CELLS};
use std::fmt;

/// Something that holds a value in the call that is worked on.
#[derive(Clone, PartialEq, Eq, Debug)]
pub enum Operand {
    /// An integer.
    Integer(i64),
    /// A register, by its name or as `r3`, or a name such as x0.
    Cell(String),
    /// An item of the vector that such a one holds, by its place.
    Item(String, Box<Operand>),
}

/// How two integers are compared.
#[derive(Clone, Copy, PartialEq, Eq, Debug)]
enum Sign {
    Less,
    AtMost,
    Greater,
    AtLeast,
    Equal,
    Unequal,
}

/// The signs as they are written, the longer of two that begin alike first.
const SIGNS: [(&str, Sign); 7] = [
    ("<=", Sign::AtMost),
    (">=", Sign::AtLeast),
    ("==", Sign::Equal),
    ("!=", Sign::Unequal),
    ("<", Sign::Less),
    (">", Sign::Greater),
    ("=", Sign::Equal),
];

impl Sign {
    /// Does it hold between two integers?
    fn holds(self, left: i64, right: i64) -> bool {
        match self {
            Sign::Less => left < right,
            Sign::AtMost => left <= right,
            Sign::Greater => left > right,
            Sign::AtLeast => left >= right,
            Sign::Equal => left == right,
            Sign::Unequal => left != right,
        }
    }

    /// How it is written.
    fn text(self) -> &'static str {
        let written = SIGNS.iter().find(|(_, sign)| *sign == self);
        written.map_or("", |(text, _)| text)
    }
}

/// Comparisons, which hold where all of them do.
#[derive(Clone, PartialEq, Eq, Debug)]
pub struct Condition(Vec<(Operand, Sign, Operand)>);

impl Operand {
    /// What a line holds as a whole.
    pub fn parse(text: &str) -> Result<Operand, String> {
        let mut rest = text;
        let operand = read_operand(&mut rest)?;
        match rest {
            "" => Ok(operand),
            rest => Err(format!("`{rest}` is one too many")),
        }
    }

    /// Asks that the session knows its registers.
    pub fn ask_known(&self, cell: &dyn Fn(&str) -> Result<usize, String>) -> Result<(), String> {
        match self {
            Operand::Integer(_) => Ok(()),
            Operand::Cell(word) => cell(word).map(|_| ()),
            Operand::Item(word, place) => cell(word).and_then(|_| place.ask_known(cell)),
        }
    }

    /// What it holds, in words; none where it holds nothing, or there is no such item.
    pub fn shown(&self, session: &Session, call: usize) -> Option<String> {
        let held = match self {
            Operand::Cell(word) => session.held(call, word)?,
            operand => Held::Integer(operand.integer(session, call)?),
        };
        let something = held != Held::Nothing;
        something.then(|| trace::value(session.state(), held))
    }

    /// The integer that it is; none where it is none.
    fn integer(&self, session: &Session, call: usize) -> Option<i64> {
        match self {
            Operand::Integer(integer) => Some(*integer),
            Operand::Cell(word) => match session.held(call, word)? {
                Held::Integer(integer) => Some(integer),
                _ => None,
            },
            Operand::Item(word, place) => {
                let Held::Vector(vector) = session.held(call, word)? else {
                    return None;
                };
                let place = usize::try_from(place.integer(session, call)?).ok()?;
                session.state().vector(vector)?.get(place).copied()
            }
        }
    }
}

impl fmt::Display for Operand {
    fn fmt(&self, formatter: &mut fmt::Formatter) -> fmt::Result {
        match self {
            Operand::Integer(integer) => write!(formatter, "{integer}"),
            Operand::Cell(word) => write!(formatter, "{word}"),
            Operand::Item(word, place) => write!(formatter, "{word}[{place}]"),
        }
    }
}

impl Condition {
    /// The comparisons of a text such as `r3 > 10 and hot == 1`.
    pub fn parse(text: &str) -> Result<Condition, String> {
        let (mut all, mut rest) = (Vec::new(), text.trim());
        loop {
            let left = read_operand(&mut rest)?;
            let sign = SIGNS.iter().find(|(text, _)| rest.starts_with(text));
            let (text, sign) = sign.ok_or_else(|| expected("one of < <= > >= == !=", rest))?;
            rest = rest[text.len()..].trim_start();
            all.push((left, *sign, read_operand(&mut rest)?));
            if rest.is_empty() {
                return Ok(Condition(all));
            }
            let and = rest.strip_prefix("and ");
            rest = and.ok_or_else(|| expected("`and` or nothing more", rest))?;
            rest = rest.trim_start();
        }
    }

    /// Asks that the session knows its registers.
    pub fn ask_known(&self, cell: &dyn Fn(&str) -> Result<usize, String>) -> Result<(), String> {
        let mut operands = self.0.iter().flat_map(|(left, _, right)| [left, right]);
        operands.try_for_each(|operand| operand.ask_known(cell))
    }

    /// Does it hold? Not where something that is compared is no integer.
    pub fn holds(&self, session: &Session, call: usize) -> bool {
        self.0.iter().all(|(left, sign, right)| {
            let (left, right) = (left.integer(session, call), right.integer(session, call));
            left.zip(right)
                .is_some_and(|(left, right)| sign.holds(left, right))
        })
    }
}

impl fmt::Display for Condition {
    fn fmt(&self, formatter: &mut fmt::Formatter) -> fmt::Result {
        for (place, (left, sign, right)) in self.0.iter().enumerate() {
            let and = if place > 0 { " and " } else { "" };
            write!(formatter, "{and}{left} {} {right}", sign.text())?;
        }
        Ok(())
    }
}

/// Words for what stands in the place of something else.
fn expected(what: &str, rest: &str) -> String {
    match rest.split_whitespace().next() {
        Some(found) => format!("expected {what}, found `{found}`"),
        None => format!("expected {what}, found the end of the line"),
    }
}

/// What something that holds a value is called in a message.
const WHAT: &str =
    "a register such as r3 or its name, a name such as x0, an item such as r1[0], or an integer";

/// Reads an operand, and the spaces behind it.
fn read_operand(rest: &mut &str) -> Result<Operand, String> {
    let first = rest.strip_prefix('-').unwrap_or(rest);
    let end = first.find(|sign: char| !sign.is_ascii_alphanumeric() && sign != '_');
    let length = end.unwrap_or(first.len()) + (rest.len() - first.len());
    let (word, behind) = rest.split_at(length);
    if let Ok(integer) = word.parse() {
        *rest = behind.trim_start();
        return Ok(Operand::Integer(integer));
    }
    if !word.starts_with(|sign: char| sign.is_ascii_alphabetic()) {
        return Err(expected(WHAT, rest));
    }
    let Some(inside) = behind.trim_start().strip_prefix('[') else {
        *rest = behind.trim_start();
        return Ok(Operand::Cell(word.to_string()));
    };
    *rest = inside.trim_start();
    let place = read_operand(rest)?;
    let closed = rest.strip_prefix(']');
    *rest = closed.ok_or_else(|| expected("`]`", rest))?.trim_start();
    Ok(Operand::Item(word.to_string(), Box::new(place)))
}

/// The place of a register such as r3, or of a name such as x0, by its number.
pub fn numbered(word: &str) -> Option<usize> {
    let unnamed = text::Registers::default();
    (0..CELLS).find(|&place| trace::cell_name(&unnamed, place) == word)
}
