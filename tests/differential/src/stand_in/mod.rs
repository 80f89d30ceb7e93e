//! The calls of the proved library, answered by the reference and the definitions in its
//! place, so that the tests can be tried without the library: feature `stand_in`.

#![allow(unsafe_code)] // The library's functions are named and called as in C.

mod pools;
mod put;
mod runs;
mod trails;

use crate::words::{answer_words, question_words};
use library::State as Snapshot;
use library::{
    FirJoined, FirMended, FirVerdict, FirVersions, FIR_ACCEPTED, FIR_FIRST_IMAGE, FIR_FORM_32,
    FIR_FORM_64, FIR_INTERFACE, FIR_LARGE, FIR_MENDED, FIR_NONE, FIR_NOT_MENDED, FIR_NOT_SOUGHT,
    FIR_ROWS, FIR_SECOND_IMAGE, FIR_STATE_LAYOUT, ROW_NUMBERS,
};
use reference::longest::{rows, Bound};
use reference::{
    join, mend, move_from, verdict_in, Form, Mended, Program, Refusal, Unjoined, Verdict,
};
use std::cell::RefCell;
use std::rc::Rc;
use std::slice;

/// The program of an image, or what refuses it.
type Accepted = Result<Rc<Program>, Refusal>;

thread_local! {
    /// The last image, and its program.
    static LAST: RefCell<Option<(Vec<u8>, Accepted)>> = const { RefCell::new(None) };
}

/// The program of an image, kept for the next call.
fn program(image: &[u8]) -> Accepted {
    LAST.with_borrow_mut(|last| {
        if last.as_ref().is_none_or(|(bytes, _)| bytes != image) {
            *last = Some((image.to_vec(), Program::accept(image).map(Rc::new)));
        }
        last.as_ref().expect("it was kept").1.clone()
    })
}

/// The items that a pointer and a length lend.
///
/// # Safety
/// They are those of a slice that outlives the call.
unsafe fn lent<'a, T>(first: *const T, length: usize) -> &'a [T] {
    slice::from_raw_parts(first, length)
}

#[no_mangle]
extern "C" fn fir_version() -> FirVersions {
    FirVersions {
        interface_number: FIR_INTERFACE,
        state_layout: FIR_STATE_LAYOUT,
    }
}

#[no_mangle]
unsafe extern "C" fn fir_question_text(question: u8, text: *mut u8, places: usize) -> usize {
    put_text(question_words(question), text, places)
}

#[no_mangle]
unsafe extern "C" fn fir_answer_text(code: u8, text: *mut u8, places: usize) -> usize {
    put_text(answer_words(code), text, places)
}

#[no_mangle]
extern "C" fn fir_state_size() -> usize {
    size_of::<Snapshot>()
}

#[no_mangle]
extern "C" fn fir_state_alignment() -> usize {
    align_of::<Snapshot>()
}

#[no_mangle]
unsafe extern "C" fn fir_check(image: *const u8, length: usize) -> FirVerdict {
    fir_check_in(image, length, FIR_FORM_64)
}

#[no_mangle]
unsafe extern "C" fn fir_check_in(image: *const u8, length: usize, form: u8) -> FirVerdict {
    let (detail, question) = match verdict_in(form_of(form), lent(image, length)) {
        Verdict::Accepted(versions) => (versions, FIR_ACCEPTED),
        Verdict::Refused(refusal) => (refusal.offset, refusal.number),
    };
    FirVerdict { detail, question }
}

#[no_mangle]
unsafe extern "C" fn fir_report(
    image: *const u8,
    length: usize,
    text: *mut u8,
    places: usize,
) -> usize {
    fir_report_in(image, length, FIR_FORM_64, text, places)
}

#[no_mangle]
unsafe extern "C" fn fir_report_in(
    image: *const u8,
    length: usize,
    form: u8,
    text: *mut u8,
    places: usize,
) -> usize {
    let report = reference::report_in(form_of(form), lent(image, length));
    put_text(&report, text, places)
}

/// Writes a text to a buffer if there is room for all of it; how many places it takes.
///
/// # Safety
/// The places are those of a slice that is lent to nobody else.
unsafe fn put_text(words: &str, text: *mut u8, places: usize) -> usize {
    let text = slice::from_raw_parts_mut(text, places);
    match text.get_mut(..words.len()) {
        Some(text) => {
            text.copy_from_slice(words.as_bytes());
            words.len()
        }
        None => 0,
    }
}

/// The form of a number.
fn form_of(number: u8) -> Form {
    match number {
        FIR_FORM_32 => Form::Narrow,
        _ => Form::Wide,
    }
}

/// Moves an image of a form into a buffer.
fn put_moved(form: Form, image: &[u8], out: &mut [u8]) -> FirVerdict {
    let (detail, question) = match move_from(form, image, out.len()) {
        Ok(moved) => {
            out[..moved.len()].copy_from_slice(&moved);
            (moved.len(), FIR_ACCEPTED)
        }
        Err(refusal) => (refusal.offset, refusal.number),
    };
    FirVerdict { detail, question }
}

#[no_mangle]
unsafe extern "C" fn fir_widen(
    image: *const u8,
    length: usize,
    out: *mut u8,
    places: usize,
) -> FirVerdict {
    let out = slice::from_raw_parts_mut(out, places);
    put_moved(Form::Narrow, lent(image, length), out)
}

#[no_mangle]
unsafe extern "C" fn fir_narrow(
    image: *const u8,
    length: usize,
    out: *mut u8,
    places: usize,
) -> FirVerdict {
    let out = slice::from_raw_parts_mut(out, places);
    put_moved(Form::Wide, lent(image, length), out)
}

#[no_mangle]
unsafe extern "C" fn fir_join(
    first: *const u8,
    first_length: usize,
    second: *const u8,
    second_length: usize,
    out: *mut u8,
    places: usize,
) -> FirJoined {
    let out = slice::from_raw_parts_mut(out, places);
    let (first, second) = (lent(first, first_length), lent(second, second_length));
    let (detail, question, image) = match join(first, second, places) {
        Ok(joined) => {
            out[..joined.len()].copy_from_slice(&joined);
            (joined.len(), FIR_ACCEPTED, 0)
        }
        Err(Unjoined::First(no)) => (no.offset, no.number, FIR_FIRST_IMAGE),
        Err(Unjoined::Second(no)) => (no.offset, no.number, FIR_SECOND_IMAGE),
        Err(Unjoined::Together(no)) => (no.offset, no.number, 0),
    };
    FirJoined {
        detail,
        question,
        image,
    }
}

#[no_mangle]
unsafe extern "C" fn fir_mend(image: *const u8, length: usize) -> FirMended {
    let (detail, question, place, mend, value) = match mend(lent(image, length)) {
        Mended::Accepted(versions) => (versions, FIR_ACCEPTED, 0, FIR_NOT_SOUGHT, 0),
        Mended::Refused(no) => (no.offset, no.number, 0, FIR_NOT_SOUGHT, 0),
        Mended::Byte {
            refusal: no,
            offset,
            value,
        } => (no.offset, no.number, offset, FIR_MENDED, value),
        Mended::Unmended(no) => (no.offset, no.number, 0, FIR_NOT_MENDED, 0),
    };
    FirMended {
        detail,
        place,
        question,
        mend,
        value,
    }
}

#[no_mangle]
unsafe extern "C" fn fir_bounds(
    image: *const u8,
    length: usize,
    numbers: *mut u8,
    steps: *mut u64,
) -> FirVerdict {
    let rows = match program(lent(image, length)) {
        Ok(program) => rows(&program),
        Err(refusal) => {
            return FirVerdict {
                detail: refusal.offset,
                question: refusal.number,
            }
        }
    };
    let numbers = slice::from_raw_parts_mut(numbers, ROW_NUMBERS);
    let steps = slice::from_raw_parts_mut(steps, FIR_ROWS);
    for (index, row) in rows.iter().enumerate() {
        numbers[2 * index] = row.function;
        numbers[2 * index + 1] = row.version;
        steps[index] = match row.bound {
            Bound::Steps(steps) => steps.into(),
            Bound::Large => FIR_LARGE,
            Bound::None => FIR_NONE,
        };
    }
    FirVerdict {
        detail: rows.len(),
        question: FIR_ACCEPTED,
    }
}
