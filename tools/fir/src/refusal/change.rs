//! Question 15: which version with a live call differs in a new image, and where, or
//! which one it lacks.

use crate::place::place;
use crate::source::Source;
use library::State;
use reference::change::{parts, Part};
use reference::record::HEAD;
use reference::Level;
use text::level_text;

/// Question 15: what is wrong at an offset of the new image, or behind its end.
pub fn change(old: &Source, new: &Source, offset: usize, state: &State) -> Option<String> {
    let (had, has) = (parts(&old.image), parts(&new.image));
    match has.iter().find(|part| part.offset == offset) {
        Some(part) => {
            let had = had.iter().find(|had| had.numbers == part.numbers)?;
            difference(old, new, had, part)
        }
        None => missing(&has, state),
    }
}

/// A version's numbers: `0.0`.
fn name((function, version): (u8, u8)) -> String {
    format!("{function}.{version}")
}

/// The first byte in which a version differs.
fn difference(old: &Source, new: &Source, had: &Part, has: &Part) -> Option<String> {
    let mut bytes = had.bytes.iter().zip(has.bytes).enumerate();
    let (at, (was, is)) = bytes.find(|(_, (was, is))| was != is)?;
    let (there, here) = (place(old, had.offset + at), place(new, has.offset + at));
    let name = name(has.numbers);
    if at == level_byte(had) {
        let (is, was) = (level_text(Level(*is)), level_text(Level(*was)));
        return Some(format!(
            "{name} has a live call and differs: its level, byte {here}, is {is}, \
             and was {was} at {there} of the old image"
        ));
    }
    Some(format!(
        "{name} has a live call and differs: byte {here} is {is}, \
         and was {was} at {there} of the old image"
    ))
}

/// Where a version's bytes hold its level: in the record behind the VERSION.
fn level_byte(part: &Part) -> usize {
    let version = u16::from_le_bytes([part.bytes[0], part.bytes[1]]);
    usize::from(version) + HEAD
}

/// The oldest live call whose version is missing.
fn missing(has: &[Part], state: &State) -> Option<String> {
    let mut live = (0..usize::from(state.calls)).filter_map(|call| state.owner(call));
    let lost = live.find(|&numbers| has.iter().all(|part| part.numbers != numbers))?;
    let name = name(lost);
    Some(format!("{name} has a live call and is missing"))
}
