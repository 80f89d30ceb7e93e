//! The two forms of images: checking in either, and moving from one to the other.

#![allow(unsafe_code)] // The library is called across a C boundary.

use crate::answers::{Refusal, Verdict};
use crate::constants::{FIR_FORM_32, FIR_FORM_64};
use crate::raw::{self, FirVerdict};

/// A form of images; the two differ in their literals alone.
#[derive(Clone, Copy, PartialEq, Eq, Debug)]
pub enum Form {
    /// The form before: literals have 32 bits.
    Narrow,
    /// The form in force: literals have 64 bits.
    Wide,
}

impl Form {
    /// The number that `fir.h` has for the form.
    fn number(self) -> u8 {
        match self {
            Form::Narrow => FIR_FORM_32,
            Form::Wide => FIR_FORM_64,
        }
    }
}

/// Checks an image in a form.
pub fn verdict_in(image: &[u8], form: Form) -> Verdict {
    // SAFETY: only the bytes that the slice lends are read.
    unsafe { raw::fir_check_in(image.as_ptr(), image.len(), form.number()) }.into()
}

/// Writes the text of an image in a form from place 0 of a buffer on, and gives its
/// length; none where the buffer is too short, which is left as it was.
pub fn report_in(image: &[u8], form: Form, text: &mut [u8]) -> Option<usize> {
    let (bytes, places) = (image.len(), text.len());
    // SAFETY: only the bytes of the image are read and only places of the text
    // are written, and `&mut` lends these apart from those.
    let length = unsafe {
        raw::fir_report_in(
            image.as_ptr(),
            bytes,
            form.number(),
            text.as_mut_ptr(),
            places,
        )
    };
    (length > 0).then_some(length)
}

/// Moves an image from the form of 32 bits to that of 64, from place 0 of a buffer
/// on, and gives its length there. A refusal writes nothing.
pub fn widen(image: &[u8], out: &mut [u8]) -> Result<usize, Refusal> {
    moved(raw::fir_widen, image, out)
}

/// Moves an image from the form of 64 bits to that of 32, as [`widen`] does.
pub fn narrow(image: &[u8], out: &mut [u8]) -> Result<usize, Refusal> {
    moved(raw::fir_narrow, image, out)
}

/// A function of `fir.h` that moves an image.
type Moving = unsafe extern "C" fn(*const u8, usize, *mut u8, usize) -> FirVerdict;

/// What a function of `fir.h` makes of an image.
fn moved(moving: Moving, image: &[u8], out: &mut [u8]) -> Result<usize, Refusal> {
    let (bytes, places) = (image.len(), out.len());
    // SAFETY: only the bytes of the image are read and only places of the buffer
    // are written, and `&mut` lends these apart from those.
    unsafe { moving(image.as_ptr(), bytes, out.as_mut_ptr(), places) }.into()
}
