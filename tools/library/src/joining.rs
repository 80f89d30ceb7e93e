//! Two images joined into one.

#![allow(unsafe_code)] // The library is called across a C boundary.

use crate::answers::Unjoined;
use crate::raw;

/// Joins two images, which may be one, from place 0 of a buffer on, and gives the
/// length of the joined image. The functions of the second follow those of the first.
/// A refusal writes nothing.
pub fn join(first: &[u8], second: &[u8], out: &mut [u8]) -> Result<usize, Unjoined> {
    let (first_length, second_length, places) = (first.len(), second.len(), out.len());
    // SAFETY: only the bytes of the two images are read and only places of the buffer
    // are written, and `&mut` lends these apart from those.
    unsafe {
        raw::fir_join(
            first.as_ptr(),
            first_length,
            second.as_ptr(),
            second_length,
            out.as_mut_ptr(),
            places,
        )
    }
    .into()
}
