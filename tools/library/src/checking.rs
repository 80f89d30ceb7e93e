//! Checking images.

#![allow(unsafe_code)] // The library is called across a C boundary.

use crate::answers::Verdict;
use crate::raw;

/// Checks an image.
pub fn verdict(image: &[u8]) -> Verdict {
    // SAFETY: only the bytes that the slice lends are read.
    unsafe { raw::fir_check(image.as_ptr(), image.len()) }.into()
}

/// Writes the text that `check` prints from place 0 of a buffer on, and gives
/// its length; none where the buffer is too short, which is left as it was.
pub fn report(image: &[u8], text: &mut [u8]) -> Option<usize> {
    // SAFETY: only the bytes of the image are read and only places of the text
    // are written, and `&mut` lends these apart from those.
    let length =
        unsafe { raw::fir_report(image.as_ptr(), image.len(), text.as_mut_ptr(), text.len()) };
    (length > 0).then_some(length)
}
