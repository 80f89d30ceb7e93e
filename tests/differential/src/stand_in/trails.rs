//! The calls that are lent a trail, by the definitions.

use super::put::put;
use super::runs::{fir_change, program_of, ran, said};
use crate::snapshot::{arrays, give, meaning};
use definitions::{Behind, Trail};
use library::State as Snapshot;
use library::{FirAnswer, FirEntry, FirSaid, Kept, FIR_ACCEPTED};
use std::slice;

/// The trail that a state and its start stand for, whatever they hold.
fn trail_of(state: &Snapshot, kept: &Kept) -> Trail {
    Trail {
        start: meaning(&kept.start()),
        behind: Behind::read(kept.steps, kept.past),
        state: meaning(state),
    }
}

/// Puts down how many steps lie behind.
fn put_behind(kept: &mut Kept, behind: Behind) {
    match behind {
        Behind::Steps(steps) => (kept.steps, kept.past) = (steps, 0),
        Behind::Past => kept.past = 1,
    }
}

#[no_mangle]
unsafe extern "C" fn fir_trail_start(state: *const Snapshot, trail: *mut Kept) {
    let (bytes, numbers) = arrays(&*state);
    let kept = &mut *trail;
    (kept.bytes, kept.numbers) = (*bytes, *numbers);
    put_behind(kept, Behind::Steps(0));
}

#[no_mangle]
unsafe extern "C" fn fir_trail_step(
    image: *const u8,
    image_length: usize,
    table: *const u8,
    table_length: usize,
    state: *mut Snapshot,
    trail: *mut Kept,
) -> FirSaid {
    let program = program_of(image, image_length, table, table_length);
    let mut after = trail_of(&*state, &*trail);
    let word = after.step(program);
    put(&mut *state, &after.state);
    put_behind(&mut *trail, after.behind);
    said(word)
}

#[no_mangle]
unsafe extern "C" fn fir_trail_budget(
    image: *const u8,
    image_length: usize,
    table: *const u8,
    table_length: usize,
    state: *mut Snapshot,
    trail: *mut Kept,
    budget: u32,
    buffer: *mut i64,
    buffer_length: usize,
) -> FirAnswer {
    let program = program_of(image, image_length, table, table_length);
    let buffer = slice::from_raw_parts_mut(buffer, buffer_length);
    let mut after = trail_of(&*state, &*trail);
    let answer = after.budget(program, budget, buffer);
    put(&mut *state, &after.state);
    put_behind(&mut *trail, after.behind);
    ran(answer)
}

#[no_mangle]
unsafe extern "C" fn fir_trail_change(
    old_image: *const u8,
    old_length: usize,
    new_image: *const u8,
    new_length: usize,
    state: *const Snapshot,
    trail: *mut Kept,
) -> FirEntry {
    let entry = fir_change(old_image, old_length, new_image, new_length, state);
    if entry.question == FIR_ACCEPTED {
        fir_trail_start(state, trail);
    }
    entry
}

#[no_mangle]
unsafe extern "C" fn fir_trail_back(
    image: *const u8,
    image_length: usize,
    table: *const u8,
    table_length: usize,
    state: *mut Snapshot,
    trail: *mut Kept,
) -> FirEntry {
    let program = program_of(image, image_length, table, table_length);
    let mut after = trail_of(&*state, &*trail);
    let question = match after.back(program) {
        Ok(()) => {
            let kept = &mut *trail;
            give(&mut *state, &kept.bytes, &kept.numbers);
            put(&mut *state, &after.state);
            put_behind(kept, after.behind);
            FIR_ACCEPTED
        }
        Err(question) => question,
    };
    let offset = 0;
    FirEntry { offset, question }
}
