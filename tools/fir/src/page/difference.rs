//! What differs from one state to the next, as a page shows states.
//!
//! A state is shown as texts by places: `c0` is the version of call 0, `c0.r1` and `c0.x1`
//! what its register and its name hold, `a0` the oldest activation, `v0` a vector that is
//! held, `p0` a promise. A register that is declared and empty shows an empty text.

use crate::trace::{cell_name, value, Holdings, Script, Spot};
use library::{Held, Opener, Register, State, CELLS, FIR_IS_INTEGER, FIR_NOTHING, FIR_PLACES};
use reference::program::Program;
use text::Registers;

/// Places with what they show now; none where nothing is shown there any more.
pub type Difference = Vec<(String, Option<String>)>;

/// A state, and the registers of its topmost call as the library shows them.
#[derive(Clone, Copy)]
pub struct Seen<'s> {
    pub state: &'s State,
    pub topmost: &'s [Register],
}

/// What differs from one state to another.
pub fn difference(script: Script, was: Seen, is: Seen) -> Difference {
    let (before, after) = (was.state, is.state);
    let (mut differs, unnamed) = (Difference::new(), Registers::default());
    for call in 0..usize::from(before.calls.max(after.calls)) {
        let name = |state: &State| state.owner(call).map(|(f, v)| format!("{f}.{v}"));
        add(&mut differs, format!("c{call}"), name(before), name(after));
        for place in 0..CELLS {
            if before.look(call, place) == after.look(call, place) && same(before, after, call) {
                continue;
            }
            let shows = |seen| cell(script.program, seen, call, place);
            let name = format!("c{call}.{}", cell_name(&unnamed, place));
            add(&mut differs, name, shows(was), shows(is));
        }
    }
    for number in 0..usize::from(before.depth.max(after.depth)) {
        if before.activation(number) != after.activation(number) {
            let shows = |state| activation(script, state, number);
            add(
                &mut differs,
                format!("a{number}"),
                shows(before),
                shows(after),
            );
        }
    }
    let (old, new) = (Holdings::of(before), Holdings::of(after));
    for place in 0..FIR_PLACES {
        let shows = |state, held: &Holdings| vector(state, held, place);
        let (old_text, new_text) = (shows(before, &old), shows(after, &new));
        add(&mut differs, format!("v{place}"), old_text, new_text);
        let shows = |state, held: &Holdings| promise(state, held, place);
        let (old_text, new_text) = (shows(before, &old), shows(after, &new));
        add(&mut differs, format!("p{place}"), old_text, new_text);
    }
    differs
}

/// Adds a place that shows something else now.
fn add(differs: &mut Difference, place: String, was: Option<String>, is: Option<String>) {
    if was != is {
        differs.push((place, is));
    }
}

/// Is a call of the same version in both states?
fn same(before: &State, after: &State, call: usize) -> bool {
    before.owner(call) == after.owner(call)
}

/// What a register or a name of a call shows.
fn cell(program: &Program, seen: Seen, call: usize, place: usize) -> Option<String> {
    let state = seen.state;
    let (function, version) = state.owner(call)?;
    let held = state.look(call, place)?;
    let newest = call + 1 == usize::from(state.calls);
    match seen.topmost.get(place).filter(|_| newest) {
        Some(row) if row.holds == FIR_NOTHING => return Some(String::new()),
        Some(row) if row.holds == FIR_IS_INTEGER => return Some(row.integer.to_string()),
        _ => {}
    }
    match held {
        Held::Nothing => {
            let version = program.version(function.into(), version.into())?;
            let declared = place < version.head.types.len();
            declared.then(String::new)
        }
        Held::Vector(place) => Some(format!("v{place}")),
        held => Some(value(state, held)),
    }
}

/// What an activation shows: what opened it, and where it stands or goes on.
fn activation(script: Script, state: &State, number: usize) -> Option<String> {
    let activation = state.activation(number)?;
    let (function, version) = state.owner(activation.call)?;
    let (call, block) = (activation.call, activation.block);
    let what = match activation.opener {
        Opener::Call => format!("call {call} of {function}.{version}"),
        Opener::Force(promise) => format!("force of p{promise}, block {block} of call {call}"),
    };
    let text = Spot::at(script, state, activation).map(|spot| spot.text());
    Some(format!("{what}: {}", text.unwrap_or_default()))
}

/// What a vector shows that is held.
fn vector(state: &State, held: &Holdings, place: usize) -> Option<String> {
    let items = state.vector(place).filter(|_| held.vectors[place])?;
    Some(format!("{items:?}"))
}

/// What a promise shows that is held or being forced.
fn promise(state: &State, held: &Holdings, place: usize) -> Option<String> {
    let mut activations = (0..usize::from(state.depth)).filter_map(|index| state.activation(index));
    let forced = activations.any(|activation| activation.opener == Opener::Force(place));
    let promise = state
        .promise(place)
        .filter(|_| forced || held.promises[place])?;
    let became = match promise.cache {
        Some(integer) => format!("gave {integer}"),
        None if forced => "is being forced".to_string(),
        None => "not forced yet".to_string(),
    };
    let (block, call) = (promise.block, promise.call);
    Some(format!("block {block} of call {call}, {became}"))
}
