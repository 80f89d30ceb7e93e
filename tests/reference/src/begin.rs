//! Questions 11, 19, 12 and 13: how a run begins.

use crate::bounds::{Integer, BUFFER, ITEMS};
use crate::program::{Program, Version};
use crate::questions::Refusal;
use crate::state::{Frame, State, Value};
use crate::types::{Kind, Level};

/// Begins a run of an image at a level: the image's questions, then 11, 19, 12
/// and 13.
pub fn begin(
    image: &[u8],
    level: usize,
    function: usize,
    version: usize,
    words: &[Integer],
    buffer: &[Integer],
) -> Result<State, Refusal> {
    let program = Program::accept(image)?;
    State::begin(&program, level, function, version, words, buffer)
}

/// Question 13: has the result buffer at least 16 places?
pub fn question13(buffer: &[Integer]) -> Result<(), Refusal> {
    if buffer.len() >= BUFFER {
        Ok(())
    } else {
        Err(no(13))
    }
}

/// Question 19: is the entry of the run's level or lower?
fn question19(entry: &Version, level: usize) -> Result<(), Refusal> {
    if entry.level <= Level::stated(level) {
        Ok(())
    } else {
        Err(no(19))
    }
}

impl State {
    /// The state of a run of an accepted image before its first step. Nothing of
    /// the run's level is kept in it.
    pub fn begin(
        program: &Program,
        level: usize,
        function: usize,
        version: usize,
        words: &[Integer],
        buffer: &[Integer],
    ) -> Result<State, Refusal> {
        let entry = program.version(function, version).ok_or(no(11))?;
        question19(entry, level)?;
        let (arguments, vectors) = arguments(entry, words).ok_or(no(12))?;
        question13(buffer)?;
        let frame = Frame::new(entry.head.function, entry.head.version, &arguments);
        Ok(State::first(frame, vectors))
    }
}

/// A refusal of a run, whose offset is 0.
fn no(number: u8) -> Refusal {
    Refusal { number, offset: 0 }
}

/// An argument that lent words make.
enum Argument {
    Integer(Integer),
    Vector(Vec<Integer>),
}

/// The head word of an integer argument.
const INTEGER_HEAD: Integer = -1;

impl Argument {
    /// The first argument of the words, and the words after it; none if they
    /// begin with no head word or end too early.
    fn read(words: &[Integer]) -> Option<(Argument, &[Integer])> {
        let (&head, rest) = words.split_first()?;
        if head == INTEGER_HEAD {
            let (&integer, rest) = rest.split_first()?;
            return Some((Argument::Integer(integer), rest));
        }
        let length = usize::try_from(head).ok().filter(|&n| n <= ITEMS)?;
        let (items, rest) = rest.split_at_checked(length)?;
        Some((Argument::Vector(items.to_vec()), rest))
    }

    /// The argument's kind.
    fn kind(&self) -> Kind {
        match self {
            Argument::Integer(_) => Kind::INTEGER,
            Argument::Vector(_) => Kind::VECTOR,
        }
    }
}

/// Question 12: the values that the words make, and the vectors they refer to; none
/// unless the words are used up exactly and each matches its parameter's kind.
fn arguments(entry: &Version, words: &[Integer]) -> Option<(Vec<Value>, Vec<Vec<Integer>>)> {
    let (mut values, mut vectors) = (Vec::new(), Vec::new());
    let mut rest = words;
    for parameter in entry.parameters() {
        let (argument, after) = Argument::read(rest)?;
        if !argument.kind().within(parameter.kind()) {
            return None;
        }
        rest = after;
        values.push(match argument {
            Argument::Integer(integer) => Value::Integer(integer),
            Argument::Vector(items) => {
                vectors.push(items);
                Value::Vector(vectors.len() - 1)
            }
        });
    }
    rest.is_empty().then_some((values, vectors))
}
