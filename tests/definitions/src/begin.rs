//! The questions 11, 19, 12 and 13, and the state of a begun run.

use crate::calls::frame_for;
use crate::cells::{kind_of, within};
use crate::program::{Program, Version};
use crate::runs::{long_enough, BUFFER_QUESTION};
use crate::state::{State, Value, Vector, ITEMS};

/// The questions to an entry: whether it exists, its level, and its arguments.
const ENTRY_QUESTION: u8 = 11;
const LEVEL_QUESTION: u8 = 19;
const ARGUMENTS_QUESTION: u8 = 12;

/// The highest level; a run that states a number above it counts as this one.
const HIGHEST: usize = 2;

/// The head word of an integer.
const INTEGER_HEAD: i64 = -1;

/// The kinds of arguments.
const INTEGER: u16 = 2;
const VECTOR: u16 = 3;

/// An argument, an integer or the items of a vector.
enum Given<'w> {
    Integer(i64),
    Vector(&'w [i64]),
}

/// The first argument of the words, and the words behind it.
fn first(words: &[i64]) -> Option<(Given<'_>, &[i64])> {
    let (&head, rest) = words.split_first()?;
    if head == INTEGER_HEAD {
        let (&integer, rest) = rest.split_first()?;
        return Some((Given::Integer(integer), rest));
    }
    let length = usize::try_from(head).ok().filter(|&n| n <= ITEMS)?;
    let (items, rest) = rest.split_at_checked(length)?;
    Some((Given::Vector(items), rest))
}

/// The arguments of a version, where the words are used up exactly.
fn arguments<'w>(version: Version, words: &'w [i64]) -> Option<Vec<Given<'w>>> {
    let mut rest = words;
    let mut all = Vec::new();
    for parameter in version.parameter_types() {
        let (given, behind) = first(rest)?;
        let kind = match given {
            Given::Integer(_) => INTEGER,
            Given::Vector(_) => VECTOR,
        };
        if !within(kind, kind_of(parameter)) {
            return None;
        }
        all.push(given);
        rest = behind;
    }
    rest.is_empty().then_some(all)
}

/// The state of a run of a version with these arguments before its first step.
fn first_state(version: Version, arguments: &[Given]) -> State {
    let mut state = State::empty();
    let (mut values, mut vectors) = (Vec::new(), 0);
    for argument in arguments {
        values.push(match *argument {
            Given::Integer(integer) => Value::Integer(integer),
            Given::Vector(items) => {
                if let Some(place) = state.vectors.get_mut(vectors) {
                    *place = Vector::new(items);
                }
                vectors += 1;
                Value::Vector((vectors - 1) as u8)
            }
        });
    }
    state.frames[0] = frame_for(version, &values);
    (state.calls, state.depth) = (1, 1);
    state
}

impl State {
    /// Begins a run at a level: its state, or the question that refuses it.
    pub fn begin(
        program: Program,
        level: usize,
        (function, version): (usize, usize),
        words: &[i64],
        places: usize,
    ) -> Result<State, u8> {
        let version = program.version(function, version).ok_or(ENTRY_QUESTION)?;
        if usize::from(version.level()) > level.min(HIGHEST) {
            return Err(LEVEL_QUESTION);
        }
        let arguments = arguments(version, words).ok_or(ARGUMENTS_QUESTION)?;
        if !long_enough(places) {
            return Err(BUFFER_QUESTION);
        }
        Ok(first_state(version, &arguments))
    }
}
