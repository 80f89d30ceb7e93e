//! How long at most: the bounds of an image's versions.

#![allow(unsafe_code)] // The library is called across a C boundary.

use crate::answers::Refusal;
use crate::constants::{FIR_LARGE, FIR_NONE, FIR_ROWS};
use crate::raw;

/// The places for the numbers of rows: a function and a version each.
pub const ROW_NUMBERS: usize = 2 * FIR_ROWS;

/// The most steps that a run of a version takes.
#[derive(Clone, Copy, PartialEq, Eq, Debug)]
pub enum Bound {
    /// So many.
    Steps(u32),
    /// More than 4,294,967,295.
    Large,
    /// None is given, since the version may come to itself, or to one that does.
    None,
}

/// A version with its bound.
#[derive(Clone, Copy, PartialEq, Eq, Debug)]
pub struct Row {
    /// The function's number.
    pub function: u8,
    /// The version's number.
    pub version: u8,
    /// Its bound.
    pub bound: Bound,
}

impl Row {
    /// The row of a version and the number that stands for its bound.
    pub fn read(function: u8, version: u8, steps: u64) -> Row {
        let bound = match (u32::try_from(steps), steps) {
            (Ok(steps), _) => Bound::Steps(steps),
            (_, FIR_LARGE) => Bound::Large,
            (_, FIR_NONE) => Bound::None,
            _ => panic!("the library gives the bound {steps}, which fir.h does not list"),
        };
        Row {
            function,
            version,
            bound,
        }
    }
}

/// The versions of an image with their bounds: those with a bound, or a large one, behind
/// those that they depend on, then those with none in order of number; or the refusal.
pub fn bounds(image: &[u8]) -> Result<Vec<Row>, Refusal> {
    let (mut numbers, mut steps) = ([0; ROW_NUMBERS], [0; FIR_ROWS]);
    let rows = bounds_into(image, &mut numbers, &mut steps)?;
    let rows = numbers.chunks(2).zip(steps).take(rows);
    let rows = rows.map(|(numbers, steps)| Row::read(numbers[0], numbers[1], steps));
    Ok(rows.collect())
}

/// Writes the rows of an image, as `fir.h` says, and gives how many they are. Places past
/// the last row stay as they were; a refusal writes nothing.
pub fn bounds_into(
    image: &[u8],
    numbers: &mut [u8; ROW_NUMBERS],
    steps: &mut [u64; FIR_ROWS],
) -> Result<usize, Refusal> {
    let (bytes, length) = (image.as_ptr(), image.len());
    // SAFETY: only the bytes of the image are read and only places of the two arrays
    // are written, which are as long as the library takes them to be.
    let listed =
        unsafe { raw::fir_bounds(bytes, length, numbers.as_mut_ptr(), steps.as_mut_ptr()) };
    listed.into()
}
