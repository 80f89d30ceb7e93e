//! The calls that are lent a pool, by the definitions.

use super::lent;
use super::put::put;
use super::runs::{fir_change, program_of, ran, refused, said};
use crate::snapshot::meaning;
use definitions::{Pool, State};
use library::State as Snapshot;
use library::{FirAnswer, FirEntry, FirTurn, Store, FIR_ACCEPTED, FIR_REFUSED, FIR_RUNS};
use std::slice;

/// The pool that a store stands for.
fn pool_of(store: &Store) -> Pool {
    let Store { reserves, has } = *store;
    Pool { reserves, has }
}

/// Puts down a pool.
fn put_pool(store: &mut Store, pool: Pool) {
    let Pool { reserves, has } = pool;
    *store = Store { reserves, has };
}

/// An answer of a question, or that none refuses.
fn entry(asked: Result<(), u8>) -> FirEntry {
    FirEntry {
        offset: 0,
        question: asked.err().unwrap_or(FIR_ACCEPTED),
    }
}

#[no_mangle]
unsafe extern "C" fn fir_pool_make(reserves: *const u8, pool: *mut Store) -> FirEntry {
    let reserves = *reserves.cast::<[u8; FIR_RUNS]>();
    let made = Pool::make(reserves).map(|made| put_pool(&mut *pool, made));
    entry(made)
}

#[no_mangle]
unsafe extern "C" fn fir_pool_begin(
    image: *const u8,
    image_length: usize,
    table: *const u8,
    table_length: usize,
    level: usize,
    function: usize,
    version: usize,
    words: *const i64,
    words_length: usize,
    _buffer: *const i64,
    buffer_length: usize,
    state: *mut Snapshot,
    pool: *mut Store,
    number: usize,
) -> FirEntry {
    let program = program_of(image, image_length, table, table_length);
    let (names, words) = ((function, version), lent(words, words_length));
    let mut after = pool_of(&*pool);
    let begin = || State::begin(program, level, names, words, buffer_length);
    let begun = after.begin(number, begin).map(|begun| {
        *state = Snapshot::blank();
        put(&mut *state, &begun);
        put_pool(&mut *pool, after);
    });
    entry(begun)
}

#[no_mangle]
unsafe extern "C" fn fir_pool_run(
    image: *const u8,
    image_length: usize,
    table: *const u8,
    table_length: usize,
    level: usize,
    function: usize,
    version: usize,
    words: *const i64,
    words_length: usize,
    budget: u32,
    buffer: *mut i64,
    buffer_length: usize,
    state: *mut Snapshot,
    pool: *mut Store,
    number: usize,
) -> FirAnswer {
    let begun = fir_pool_begin(
        image,
        image_length,
        table,
        table_length,
        level,
        function,
        version,
        words,
        words_length,
        buffer,
        buffer_length,
        state,
        pool,
        number,
    );
    if begun.question != FIR_ACCEPTED {
        return refused(begun.question);
    }
    fir_pool_budget(
        image,
        image_length,
        table,
        table_length,
        state,
        pool,
        number,
        budget,
        buffer,
        buffer_length,
    )
}

#[no_mangle]
unsafe extern "C" fn fir_pool_step(
    image: *const u8,
    image_length: usize,
    table: *const u8,
    table_length: usize,
    state: *mut Snapshot,
    pool: *mut Store,
    number: usize,
) -> FirTurn {
    let program = program_of(image, image_length, table, table_length);
    let (mut after, mut stepped) = (pool_of(&*pool), meaning(&*state));
    let turn = after.step(number, program, &mut stepped);
    put(&mut *state, &stepped);
    put_pool(&mut *pool, after);
    match turn {
        Ok(word) => {
            let said = said(word);
            FirTurn {
                value: said.value,
                offset: 0,
                code: said.code,
                length: said.length,
                question: 0,
            }
        }
        Err(question) => FirTurn {
            value: 0,
            offset: 0,
            code: FIR_REFUSED,
            length: 0,
            question,
        },
    }
}

#[no_mangle]
unsafe extern "C" fn fir_pool_budget(
    image: *const u8,
    image_length: usize,
    table: *const u8,
    table_length: usize,
    state: *mut Snapshot,
    pool: *mut Store,
    number: usize,
    budget: u32,
    buffer: *mut i64,
    buffer_length: usize,
) -> FirAnswer {
    let program = program_of(image, image_length, table, table_length);
    let buffer = slice::from_raw_parts_mut(buffer, buffer_length);
    let (mut after, mut stepped) = (pool_of(&*pool), meaning(&*state));
    let answer = after.budget(number, program, &mut stepped, budget, buffer);
    put(&mut *state, &stepped);
    put_pool(&mut *pool, after);
    ran(answer)
}

#[no_mangle]
unsafe extern "C" fn fir_pool_change(
    old_image: *const u8,
    old_length: usize,
    new_image: *const u8,
    new_length: usize,
    state: *const Snapshot,
    pool: *const Store,
    number: usize,
) -> FirEntry {
    match pool_of(&*pool).ask(number) {
        Ok(()) => fir_change(old_image, old_length, new_image, new_length, state),
        asked => entry(asked),
    }
}

#[no_mangle]
unsafe extern "C" fn fir_pool_back(pool: *const Store, number: usize) -> FirEntry {
    entry(Err(pool_of(&*pool).back(number)))
}
