//! Words for what refuses, and for how runs are answered.

#![allow(unsafe_code)] // The library is called across a C boundary.

use crate::raw;

/// Writes what a refusal by a question says from place 0 of a buffer on, and gives
/// its length; none for a number that is no question's, and where the buffer is too
/// short: it is left as it was.
pub fn question_text(question: u8, text: &mut [u8]) -> Option<usize> {
    // SAFETY: only places that `&mut` lends are written.
    let length = unsafe { raw::fir_question_text(question, text.as_mut_ptr(), text.len()) };
    (length > 0).then_some(length)
}

/// Writes what an answer of a code of `fir.h` says from place 0 of a buffer on, and gives
/// its length; none for a number that is no code, and where the buffer is too short: it is
/// left as it was.
pub fn answer_text(code: u8, text: &mut [u8]) -> Option<usize> {
    // SAFETY: only places that `&mut` lends are written.
    let length = unsafe { raw::fir_answer_text(code, text.as_mut_ptr(), text.len()) };
    (length > 0).then_some(length)
}
