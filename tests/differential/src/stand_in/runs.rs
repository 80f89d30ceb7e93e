//! Loading, and the calls that are lent a state, by the definitions.

use super::put::{fill, numbers, put, table_size};
use super::{lent, program};
use crate::snapshot::meaning;
use definitions::{Answer, Program, Ran, Said, State, Value};
use library::State as Snapshot;
use library::{
    FirAnswer, FirEntry, FirLoaded, FirPosition, FirSaid, FirSearched, FirValue, FirWatched,
    Register, FIR_ACCEPTED, FIR_AT_BLOCK_END, FIR_AT_INSTRUCTION, FIR_IS_INTEGER, FIR_IS_PROMISE,
    FIR_IS_VECTOR, FIR_LOADED, FIR_NOTHING, FIR_NOWHERE, FIR_OUTSIDE, FIR_REFUSED,
    FIR_REFUSED_ROWS, FIR_SHORT, FIR_STEPS, FIR_STUCK,
};
use reference::change::change_from;
use std::slice;

/// The bytes of a table that say which versions there are.
const VERSIONS: usize = 256;

/// The image and the table that are lent.
///
/// # Safety
/// They are those of slices that outlive the call.
pub unsafe fn program_of<'a>(
    image: *const u8,
    image_length: usize,
    table: *const u8,
    table_length: usize,
) -> Program<'a> {
    Program {
        image: lent(image, image_length),
        table: lent(table, table_length),
    }
}

#[no_mangle]
extern "C" fn fir_table_size(image_length: usize) -> usize {
    table_size(image_length)
}

#[no_mangle]
unsafe extern "C" fn fir_load(
    image: *const u8,
    image_length: usize,
    table: *mut u8,
    table_length: usize,
) -> FirLoaded {
    let image = lent(image, image_length);
    let table = slice::from_raw_parts_mut(table, table_length);
    let needed = table_size(image_length);
    let (code, question, detail) = match program(image) {
        Err(no) => (FIR_REFUSED, no.number, no.offset),
        Ok(_) if table_length < needed => (FIR_SHORT, 0, needed),
        Ok(program) => (FIR_LOADED, 0, program.versions.len()),
    };
    if code == FIR_LOADED {
        fill(image, table);
    } else {
        table[..VERSIONS.min(table_length)].fill(0);
    }
    FirLoaded {
        detail,
        code,
        question,
    }
}

/// An answer by the numbers of its code.
fn answered((code, length, value): (u8, u8, i64), steps: u32) -> FirAnswer {
    FirAnswer {
        steps,
        value,
        offset: 0,
        code,
        length,
        question: 0,
    }
}

/// An answer that is a refusal.
pub fn refused(question: u8) -> FirAnswer {
    FirAnswer {
        question,
        ..answered((FIR_REFUSED, 0, 0), 0)
    }
}

/// What a single step says.
pub fn said(said: Said) -> FirSaid {
    let (code, length, value) = match said {
        Said::GoesOn => (FIR_STEPS, 0, 0),
        Said::Stuck => (FIR_STUCK, 0, 0),
        Said::Ended(end) => numbers(end),
    };
    FirSaid {
        value,
        code,
        length,
    }
}

/// The answer to a budget.
pub fn ran(ran: Ran) -> FirAnswer {
    let numbers = match ran.answer {
        Answer::Refused(question) => return refused(question),
        Answer::Steps => (FIR_STEPS, 0, 0),
        Answer::Stuck => (FIR_STUCK, 0, 0),
        Answer::Ended(end) => numbers(end),
    };
    answered(numbers, ran.steps)
}

#[no_mangle]
unsafe extern "C" fn fir_begin(
    image: *const u8,
    image_length: usize,
    table: *const u8,
    table_length: usize,
    level: usize,
    function: usize,
    version: usize,
    words: *const i64,
    words_length: usize,
    _buffer: *const i64,
    buffer_length: usize,
    state: *mut Snapshot,
) -> FirEntry {
    let program = program_of(image, image_length, table, table_length);
    let (entry, words) = ((function, version), lent(words, words_length));
    let question = match State::begin(program, level, entry, words, buffer_length) {
        Ok(begun) => {
            *state = Snapshot::blank();
            put(&mut *state, &begun);
            FIR_ACCEPTED
        }
        Err(question) => question,
    };
    let offset = 0;
    FirEntry { offset, question }
}

#[no_mangle]
unsafe extern "C" fn fir_step(
    image: *const u8,
    image_length: usize,
    table: *const u8,
    table_length: usize,
    state: *mut Snapshot,
) -> FirSaid {
    let program = program_of(image, image_length, table, table_length);
    let mut after = meaning(&*state);
    let word = after.step(program);
    put(&mut *state, &after);
    said(word)
}

#[no_mangle]
unsafe extern "C" fn fir_budget(
    image: *const u8,
    image_length: usize,
    table: *const u8,
    table_length: usize,
    state: *mut Snapshot,
    budget: u32,
    buffer: *mut i64,
    buffer_length: usize,
) -> FirAnswer {
    let program = program_of(image, image_length, table, table_length);
    let buffer = slice::from_raw_parts_mut(buffer, buffer_length);
    let mut after = meaning(&*state);
    let answer = after.budget(program, budget, buffer);
    put(&mut *state, &after);
    ran(answer)
}

#[no_mangle]
unsafe extern "C" fn fir_run(
    image: *const u8,
    image_length: usize,
    table: *const u8,
    table_length: usize,
    level: usize,
    function: usize,
    version: usize,
    words: *const i64,
    words_length: usize,
    budget: u32,
    buffer: *mut i64,
    buffer_length: usize,
    state: *mut Snapshot,
) -> FirAnswer {
    let begun = fir_begin(
        image,
        image_length,
        table,
        table_length,
        level,
        function,
        version,
        words,
        words_length,
        buffer,
        buffer_length,
        state,
    );
    if begun.question != FIR_ACCEPTED {
        return refused(begun.question);
    }
    fir_budget(
        image,
        image_length,
        table,
        table_length,
        state,
        budget,
        buffer,
        buffer_length,
    )
}

#[no_mangle]
pub unsafe extern "C" fn fir_change(
    old_image: *const u8,
    old_length: usize,
    new_image: *const u8,
    new_length: usize,
    state: *const Snapshot,
) -> FirEntry {
    let live = meaning(&*state).live_versions();
    let (old, new) = (lent(old_image, old_length), lent(new_image, new_length));
    match change_from(old, new, &live) {
        Ok(()) => FirEntry {
            question: FIR_ACCEPTED,
            offset: 0,
        },
        Err(refusal) => FirEntry {
            question: refusal.number,
            offset: refusal.offset as u16,
        },
    }
}

#[no_mangle]
unsafe extern "C" fn fir_look(state: *const Snapshot, call: usize, place: usize) -> FirValue {
    let (number, kind, place) = match meaning(&*state).look(call, place) {
        None => (0, FIR_OUTSIDE, 0),
        Some(Value::Empty) => (0, FIR_NOTHING, 0),
        Some(Value::Integer(number)) => (number, FIR_IS_INTEGER, 0),
        Some(Value::Vector(place)) => (0, FIR_IS_VECTOR, place),
        Some(Value::Promise(place)) => (0, FIR_IS_PROMISE, place),
    };
    FirValue {
        number,
        kind,
        place,
    }
}

#[no_mangle]
unsafe extern "C" fn fir_watch(
    image: *const u8,
    image_length: usize,
    table: *const u8,
    table_length: usize,
    state: *const Snapshot,
    rows: *mut Register,
    rows_length: usize,
) -> FirWatched {
    let program = program_of(image, image_length, table, table_length);
    let shown = meaning(&*state).watch(program);
    if rows_length < shown.len() {
        return FirWatched {
            filled: 0,
            question: FIR_REFUSED_ROWS,
        };
    }
    for (place, row) in shown.iter().enumerate() {
        *rows.add(place) = Register {
            integer: row.integer,
            items: row.items,
            declared: row.declared,
            holds: row.holds,
            length: row.length,
            mark: row.mark,
        };
    }
    FirWatched {
        filled: shown.len() as u8,
        question: FIR_ACCEPTED,
    }
}

#[no_mangle]
unsafe extern "C" fn fir_search(
    image: *const u8,
    image_length: usize,
    table: *const u8,
    table_length: usize,
    state: *const Snapshot,
) -> FirSearched {
    let program = program_of(image, image_length, table, table_length);
    let search = meaning(&*state).search(program);
    FirSearched {
        dispatch: search.is_some().into(),
        looked: search.map_or(0, |search| search.looked),
        versions: search.map_or(0, |search| search.versions),
    }
}

#[no_mangle]
unsafe extern "C" fn fir_where(
    image: *const u8,
    image_length: usize,
    table: *const u8,
    table_length: usize,
    state: *const Snapshot,
) -> FirPosition {
    let program = program_of(image, image_length, table, table_length);
    let Some(position) = meaning(&*state).position(program) else {
        return FirPosition {
            offset: 0,
            kind: FIR_NOWHERE,
            function: 0,
            version: 0,
            block: 0,
            instruction: 0,
        };
    };
    FirPosition {
        offset: position.offset,
        kind: match position.at_end {
            true => FIR_AT_BLOCK_END,
            false => FIR_AT_INSTRUCTION,
        },
        function: position.function,
        version: position.version,
        block: position.block,
        instruction: position.instruction,
    }
}
