//! "New script without a stop": question 15, whether a state may go on under a
//! new image.

use crate::kinds;
use crate::program::Program;
use crate::questions::Refusal;
use crate::record::Framed;
use crate::state::State;
use std::collections::BTreeSet;

/// May the state go on under the new image? The new image's own questions,
/// then 15. The old image is not asked again, and the state stays whole.
pub fn change(old: &[u8], new: &[u8], state: &State) -> Result<(), Refusal> {
    change_from(old, new, &state.live_versions())
}

/// The same for a state whose live calls are of these versions: function and version.
pub fn change_from(old: &[u8], new: &[u8], live: &BTreeSet<(u8, u8)>) -> Result<(), Refusal> {
    Program::accept(new)?;
    question15(old, new, live).map_err(|offset| Refusal { number: 15, offset })
}

/// Question 15: has every version with a live call the same bytes and number in
/// both images? A no is at the new image's first such version that differs, or
/// at its length if none differs and one is missing.
fn question15(old: &[u8], new: &[u8], live: &BTreeSet<(u8, u8)>) -> Result<(), usize> {
    let (before, after) = (parts(old), parts(new));
    let same = |part: &Part| {
        let had = before.iter().find(|had| had.numbers == part.numbers);
        had.is_some_and(|had| had.bytes == part.bytes)
    };
    for part in &after {
        if live.contains(&part.numbers) && !same(part) {
            return Err(part.offset);
        }
    }
    let there = |&numbers: &(u8, u8)| after.iter().any(|part| part.numbers == numbers);
    if live.iter().all(there) {
        Ok(())
    } else {
        Err(new.len())
    }
}

/// What an image holds of one version.
#[derive(Clone, Copy, PartialEq, Eq, Debug)]
pub struct Part<'i> {
    /// The function's number and the version's.
    pub numbers: (u8, u8),
    /// Where the VERSION record begins.
    pub offset: usize,
    /// The bytes from the VERSION record to the next one, or to the image's end.
    pub bytes: &'i [u8],
}

/// The versions of an image with their bytes, in image order.
pub fn parts(image: &[u8]) -> Vec<Part<'_>> {
    let mut parts: Vec<Part> = Vec::new();
    let mut offset = 0;
    while let Some(framed) = Framed::at(image, offset) {
        if framed.kind == kinds::VERSION {
            let number = |place| framed.body.get(place).copied().unwrap_or(0);
            parts.push(Part {
                numbers: (number(0), number(1)),
                offset,
                bytes: &image[offset..],
            });
        }
        offset = framed.end();
    }
    let ends = parts.iter().skip(1).map(|part| part.offset);
    let ends: Vec<usize> = ends.chain([image.len()]).collect();
    for (part, end) in parts.iter_mut().zip(ends) {
        part.bytes = &image[part.offset..end];
    }
    parts
}
