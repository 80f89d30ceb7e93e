//! What eight runs share of 64 vectors, and the calls that are lent it.

#![allow(unsafe_code)] // The library is called across a C boundary.

use crate::answers::{Ran, Refusal, Said};
use crate::constants::{FIR_PLACES, FIR_RUNS};
use crate::program::Program;
use crate::raw;
use crate::run::{Entry, Run};
use crate::state::assert_layout;
use std::borrow::Cow;

/// What each number reserves of 64 vectors, and how many its run has, field for field the
/// `fir_pool` of `fir.h`, which says what they mean. Every content is allowed, and every
/// number. It does not say which runs it belongs to: a [`Pool`](crate::Pool) holds all.
///
/// Each function but [`Store::make`] is lent a number with its run. The caller owes that the
/// run is the one that the last call under this number in this store left: nothing can test
/// it. Every call still answers and keeps to its memory where it is not.
#[repr(C)]
#[derive(Clone, Copy, PartialEq, Eq, Debug, Default)]
pub struct Store {
    /// Of 64 vectors, by number.
    pub reserves: [u8; FIR_RUNS],
    /// How many the run of each number has.
    pub has: [u8; FIR_RUNS],
}

/// What a run begins with: its level, its entry and its argument words.
#[derive(Clone, Copy, PartialEq, Eq, Debug)]
pub struct Start<'w> {
    /// The level that it states.
    pub level: usize,
    /// The version that it enters.
    pub entry: Entry,
    /// Its argument words.
    pub words: &'w [i64],
}

impl Store {
    /// A store with these reserves, in which no number has a run; or 21, where they sum above
    /// 64.
    pub fn make(reserves: [u8; FIR_RUNS]) -> Result<Store, Refusal> {
        let mut store = Store::default();
        store.make_anew(reserves)?;
        Ok(store)
    }

    /// Makes it anew, with these reserves; or 21, and it is as it was.
    pub fn make_anew(&mut self, reserves: [u8; FIR_RUNS]) -> Result<(), Refusal> {
        // SAFETY: eight reserves are lent, and only read; the store is one of `fir.h`, and
        // `&mut` shares it with none.
        unsafe { raw::fir_pool_make(reserves.as_ptr(), self) }.into()
    }

    /// How many vectors the run of a number may have while no other run moves; 0 for a number
    /// that is none.
    pub fn may_have(&self, number: usize) -> usize {
        let Some(&reserve) = self.reserves.get(number) else {
            return 0;
        };
        let numbers = self.reserves.iter().zip(&self.has).enumerate();
        let others = numbers.filter(|&(other, _)| other != number);
        let taken = others.map(|(_, (reserve, has))| usize::from(*reserve.max(has)));
        FIR_PLACES
            .saturating_sub(taken.sum())
            .max(usize::from(reserve))
    }

    /// Begins a run under a number, in place of the one that it is lent, which ends; where
    /// it is refused, run and store are as they were. Where its arguments need more vectors
    /// than it may have, it has begun and ended with VECTORS. The buffer is asked for its
    /// length only.
    pub fn begin<'p>(
        &mut self,
        number: usize,
        run: &mut Run<'p>,
        program: impl Into<Cow<'p, Program>>,
        start: Start,
        buffer: &[i64],
    ) -> Result<(), Refusal> {
        assert_layout();
        let program = program.into();
        let (image, table) = (program.image(), program.table());
        let (_, state) = run.lent();
        // SAFETY: the slices lend what their lengths say, and state and store are of the
        // library's layout; these two alone are written, and `&mut` shares neither.
        let begun = unsafe {
            raw::fir_pool_begin(
                image.as_ptr(),
                image.len(),
                table.as_ptr(),
                table.len(),
                start.level,
                start.entry.function,
                start.entry.version,
                start.words.as_ptr(),
                start.words.len(),
                buffer.as_ptr(),
                buffer.len(),
                state,
                self,
                number,
            )
        };
        Result::from(begun)?;
        run.put_in_force(program);
        Ok(())
    }

    /// Begins a run under a number, as [`Store::begin`] does, and takes at most so many
    /// steps, as [`Store::budget`] does.
    pub fn run<'p>(
        &mut self,
        number: usize,
        run: &mut Run<'p>,
        program: impl Into<Cow<'p, Program>>,
        start: Start,
        budget: u32,
        buffer: &mut [i64],
    ) -> Ran {
        assert_layout();
        let program = program.into();
        let (image, table) = (program.image(), program.table());
        let (_, state) = run.lent();
        // SAFETY: as in `begin`; the buffer, which is written too, is lent by a `&mut` of
        // its own.
        let ran = unsafe {
            raw::fir_pool_run(
                image.as_ptr(),
                image.len(),
                table.as_ptr(),
                table.len(),
                start.level,
                start.entry.function,
                start.entry.version,
                start.words.as_ptr(),
                start.words.len(),
                budget,
                buffer.as_mut_ptr(),
                buffer.len(),
                state,
                self,
                number,
            )
        };
        let ran = Ran::from(ran);
        if !ran.is_refused() {
            run.put_in_force(program);
        }
        ran
    }

    /// Takes a single step of the run of a number.
    pub fn step(&mut self, number: usize, run: &mut Run) -> Result<Said, Refusal> {
        assert_layout();
        let (program, state) = run.lent();
        let (image, table) = (program.image(), program.table());
        // SAFETY: as in `begin`.
        let turn = unsafe {
            raw::fir_pool_step(
                image.as_ptr(),
                image.len(),
                table.as_ptr(),
                table.len(),
                state,
                self,
                number,
            )
        };
        turn.into()
    }

    /// Takes at most so many steps of the run of a number. A vector that the run is DONE
    /// with is written to the buffer from place 0 on; all else in the buffer stays.
    pub fn budget(&mut self, number: usize, run: &mut Run, budget: u32, buffer: &mut [i64]) -> Ran {
        assert_layout();
        let (program, state) = run.lent();
        let (image, table) = (program.image(), program.table());
        // SAFETY: as in `run`.
        let ran = unsafe {
            raw::fir_pool_budget(
                image.as_ptr(),
                image.len(),
                table.as_ptr(),
                table.len(),
                state,
                self,
                number,
                budget,
                buffer.as_mut_ptr(),
                buffer.len(),
            )
        };
        ran.into()
    }

    /// May the run of a number go on under the program of this image?
    pub fn may_change(&self, number: usize, run: &Run, image: &[u8]) -> Result<(), Refusal> {
        assert_layout();
        let old = run.image();
        // SAFETY: the slices lend what their lengths say, and state and store are of the
        // library's layout; all are only read.
        let changed = unsafe {
            raw::fir_pool_change(
                old.as_ptr(),
                old.len(),
                image.as_ptr(),
                image.len(),
                run.state(),
                self,
                number,
            )
        };
        changed.into()
    }

    /// The run of a number goes on under a new program; where its image is refused, under
    /// the old one. State and store are the same either way.
    pub fn change<'p>(
        &self,
        number: usize,
        run: &mut Run<'p>,
        program: impl Into<Cow<'p, Program>>,
    ) -> Result<(), Refusal> {
        let program = program.into();
        self.may_change(number, run, program.image())?;
        run.put_in_force(program);
        Ok(())
    }

    /// Why a run under a number takes no step back: 21, else 20, since no state in a pool
    /// has a step behind it.
    pub fn back(&self, number: usize) -> Refusal {
        // SAFETY: the store is one of `fir.h`, and is only read.
        let back = unsafe { raw::fir_pool_back(self, number) };
        Result::from(back).expect_err("no step lies behind a state in a pool")
    }
}
