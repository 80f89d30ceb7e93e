//! Where two states of a run differ.

use reference::state::{Activation, Frame};
use reference::State;
use std::fmt::Debug;

/// The first part in which a found state differs from the expected one; none
/// where the calls with their versions, registers and names, the activations,
/// the vectors and promises, the status and the result are the same.
pub fn difference(expected: &State, found: &State) -> Option<String> {
    if expected == found {
        return None;
    }
    let counts = |state: &State| (state.frames.len(), state.activations.len());
    let parts = [
        differ("calls and depth", counts(expected), counts(found)),
        first(&expected.frames, &found.frames, frame_difference),
        first(&expected.activations, &found.activations, activation),
        first(&expected.vectors, &found.vectors, |place, e, f| {
            differ(&format!("vector {place}"), e, f)
        }),
        first(&expected.promises, &found.promises, |place, e, f| {
            differ(&format!("promise {place}"), e, f)
        }),
        differ("status", expected.status, found.status),
        differ("result", &expected.result, &found.result),
    ];
    parts.into_iter().flatten().next()
}

/// What is expected and what is found, where they differ.
fn differ<T: PartialEq + Debug>(part: &str, expected: T, found: T) -> Option<String> {
    (expected != found).then(|| format!("{part}: expected {expected:?}, found {found:?}"))
}

/// The first difference between items at the same place.
fn first<T>(
    expected: &[T],
    found: &[T],
    difference: impl Fn(usize, &T, &T) -> Option<String>,
) -> Option<String> {
    let pairs = expected.iter().zip(found).enumerate();
    pairs
        .filter_map(|(place, (e, f))| difference(place, e, f))
        .next()
}

/// Where the frame of a call differs.
fn frame_difference(call: usize, expected: &Frame, found: &Frame) -> Option<String> {
    let numbers = |frame: &Frame| (frame.function, frame.version);
    differ(
        &format!("version of call {call}"),
        numbers(expected),
        numbers(found),
    )
    .or_else(|| {
        first(&expected.registers, &found.registers, |r, e, f| {
            differ(&format!("register {r} of call {call}"), e, f)
        })
    })
    .or_else(|| {
        first(&expected.names, &found.names, |x, e, f| {
            differ(&format!("name {x} of call {call}"), e, f)
        })
    })
}

/// Where an activation differs.
fn activation(index: usize, expected: &Activation, found: &Activation) -> Option<String> {
    differ(&format!("activation {index}"), expected, found)
}

#[cfg(test)]
mod tests {
    use super::*;
    use reference::state::{Opener, Promise};
    use reference::{End, Status, Value};

    /// A state with a call, a vector and a promise.
    fn state() -> State {
        let arguments = [Value::Integer(1), Value::Vector(0), Value::Promise(0)];
        let mut state = State::first(Frame::new(0, 0, &arguments), vec![vec![1, 2]]);
        state.promises[0] = Some(Promise {
            frame: 0,
            block: 1,
            cache: None,
        });
        state
    }

    /// Asserts that a change of a state is found in a part.
    #[track_caller]
    fn finds(part: &str, change: impl Fn(&mut State)) {
        let mut changed = state();
        change(&mut changed);
        let found = difference(&state(), &changed);
        assert!(
            found.as_ref().is_some_and(|found| found.starts_with(part)),
            "{part}: {found:?}"
        );
    }

    #[test]
    fn a_state_does_not_differ_from_itself() {
        assert_eq!(difference(&state(), &state()), None);
    }

    #[test]
    fn each_part_that_differs_is_found() {
        finds("calls and depth", |s| s.frames.clear());
        finds("calls and depth", |s| s.activations.clear());
        finds("version of call 0", |s| s.frames[0].function = 1);
        finds("version of call 0", |s| s.frames[0].version = 1);
        finds("register 1 of call 0", |s| s.frames[0].registers[1] = None);
        finds("register 15 of call 0", |s| {
            s.frames[0].registers[15] = Some(Value::Integer(0));
        });
        finds("name 7 of call 0", |s| {
            s.frames[0].names[7] = Some(Value::Integer(0));
        });
        finds("vector 0", |s| s.vectors[0] = Some(vec![1, 3]));
        finds("promise 0", |s| s.promises[0] = None);
        finds("status", |s| s.status = Status::Ended(End::Undef));
        finds("result", |s| s.result.push(0));
    }

    #[test]
    fn each_field_of_an_activation_is_looked_at() {
        finds("activation 0", |s| {
            s.activations[0].opener = Opener::Force(0);
        });
        finds("activation 0", |s| s.activations[0].d = 1);
        finds("activation 0", |s| s.activations[0].frame = 1);
        finds("activation 0", |s| s.activations[0].block = 1);
        finds("activation 0", |s| s.activations[0].next = 1);
    }
}
