//! A run with its start kept, which steps back.

#![allow(unsafe_code)] // The library is called across a C boundary.

use crate::answers::{Ran, Refusal, Said};
use crate::constants::{FIR_TRAIL_BYTES, FIR_TRAIL_NUMBERS};
use crate::program::Program;
use crate::raw;
use crate::run::Run;
use crate::state::{assert_layout, State};
use std::borrow::Cow;
use std::ops::Deref;
use std::slice::from_mut;

/// The start of a run and how many steps lie behind its state, field for field the
/// `fir_trail` of `fir.h`, which says what they mean. Every content is allowed. It does
/// not say which run it belongs to: a [`Trail`] holds both.
#[repr(C)]
#[derive(Clone, PartialEq, Eq)]
pub struct Kept {
    /// The integers of the start.
    pub numbers: [i64; FIR_TRAIL_NUMBERS],
    /// Its bytes behind them.
    pub bytes: [u8; FIR_TRAIL_BYTES],
    /// How many steps lie behind, where `past` is 0.
    pub steps: u32,
    /// All else than 0: more than 4,294,967,295 were taken, and none lies behind.
    pub past: u8,
}

impl Kept {
    /// A start of this byte alone, and no step behind.
    pub fn filled(byte: u8) -> Kept {
        Kept {
            numbers: [i64::from_le_bytes([byte; 8]); FIR_TRAIL_NUMBERS],
            bytes: [byte; FIR_TRAIL_BYTES],
            steps: 0,
            past: 0,
        }
    }

    /// A state as the start, and no step behind.
    fn of(state: &State) -> Kept {
        assert_layout();
        let mut kept = Kept::filled(0);
        // SAFETY: the state is one of the library's layout, and is only read; the start
        // alone is written, which is one of `fir.h`.
        unsafe { raw::fir_trail_start(state, &mut kept) };
        kept
    }

    /// How many steps lie behind; none where too many were taken.
    pub fn behind(&self) -> Option<u32> {
        (self.past == 0).then_some(self.steps)
    }

    /// The start, as a state.
    pub fn start(&self) -> State {
        let mut state = State::blank();
        let (numbers, bytes) = (&mut &self.numbers[..], &mut &self.bytes[..]);
        take(numbers, &mut state.numbers);
        take(numbers, &mut state.items);
        take(numbers, &mut state.caches);
        take(numbers, &mut state.result);
        take(numbers, from_mut(&mut state.value));
        take(bytes, &mut state.tags);
        take(bytes, &mut state.places);
        take(bytes, &mut state.stack);
        take(bytes, &mut state.promises);
        take(bytes, &mut state.lengths);
        for count in [
            &mut state.calls,
            &mut state.depth,
            &mut state.status,
            &mut state.length,
        ] {
            take(bytes, from_mut(count));
        }
        take(bytes, &mut state.spare);
        state
    }
}

/// Takes the first of a list to fill a field.
fn take<T: Copy>(from: &mut &[T], to: &mut [T]) {
    let (first, rest) = from.split_at(to.len());
    to.copy_from_slice(first);
    *from = rest;
}

/// A run with its start kept. Steps, budgets and changes are those of the run, and those
/// that count lie behind it; a step back gives the state of one step less.
#[derive(Clone)]
pub struct Trail<'p> {
    run: Run<'p>,
    kept: Kept,
}

impl<'p> Deref for Trail<'p> {
    type Target = Run<'p>;

    fn deref(&self) -> &Run<'p> {
        &self.run
    }
}

impl<'p> Trail<'p> {
    /// Keeps the state of a run as its start, with no step behind it.
    pub fn start(run: Run<'p>) -> Trail<'p> {
        let kept = Kept::of(run.state());
        Trail { run, kept }
    }

    /// Goes on with a run and its start, which were stored. The caller owes that they
    /// belong together: nothing can test it. Every call still answers and keeps to its
    /// memory where they do not, but nothing is promised of a step back.
    pub fn resume_with_its_own_run(run: Run<'p>, kept: Kept) -> Trail<'p> {
        Trail { run, kept }
    }

    /// The same run at its start, with no step behind it.
    pub fn at_start(&self) -> Trail<'p> {
        Trail::start(self.run.in_state(self.kept.start()))
    }

    /// Takes a single step.
    pub fn step(&mut self) -> Said {
        assert_layout();
        let (program, state) = self.run.lent();
        let (image, table) = (program.image(), program.table());
        // SAFETY: the slices lend what their lengths say, and state and start are of the
        // library's layout; these two alone are written, and `&mut` shares neither.
        let said = unsafe {
            raw::fir_trail_step(
                image.as_ptr(),
                image.len(),
                table.as_ptr(),
                table.len(),
                state,
                &mut self.kept,
            )
        };
        said.into()
    }

    /// Takes at most so many steps. A vector that the run is DONE with is written to the
    /// buffer from place 0 on; all else in the buffer stays.
    pub fn budget(&mut self, budget: u32, buffer: &mut [i64]) -> Ran {
        assert_layout();
        let (program, state) = self.run.lent();
        let (image, table) = (program.image(), program.table());
        // SAFETY: as in `step`; the buffer, which is written too, is lent by a `&mut` of
        // its own.
        let ran = unsafe {
            raw::fir_trail_budget(
                image.as_ptr(),
                image.len(),
                table.as_ptr(),
                table.len(),
                state,
                &mut self.kept,
                budget,
                buffer.as_mut_ptr(),
                buffer.len(),
            )
        };
        ran.into()
    }

    /// Goes on under a new program, with no step behind; where its image is refused, under
    /// the old one, and the steps stay behind. The state is the same either way.
    pub fn change(&mut self, program: impl Into<Cow<'p, Program>>) -> Result<(), Refusal> {
        assert_layout();
        let program = program.into();
        let (old, new) = (self.run.image(), program.image());
        // SAFETY: the slices lend what their lengths say, and state and start are of the
        // library's layout; the start alone is written, and `&mut` shares it with none.
        let changed = unsafe {
            raw::fir_trail_change(
                old.as_ptr(),
                old.len(),
                new.as_ptr(),
                new.len(),
                self.run.state(),
                &mut self.kept,
            )
        };
        Result::from(changed)?;
        self.run.put_in_force(program);
        Ok(())
    }

    /// Takes a step back: the state that one step less gives from the start; or 20, where
    /// no step lies behind, and all is as it was.
    pub fn back(&mut self) -> Result<(), Refusal> {
        assert_layout();
        let (program, state) = self.run.lent();
        let (image, table) = (program.image(), program.table());
        // SAFETY: as in `step`.
        let back = unsafe {
            raw::fir_trail_back(
                image.as_ptr(),
                image.len(),
                table.as_ptr(),
                table.len(),
                state,
                &mut self.kept,
            )
        };
        back.into()
    }

    /// How many steps lie behind the state since the start or the last change that was
    /// taken; none where they are more than 4,294,967,295.
    pub fn behind(&self) -> Option<u32> {
        self.kept.behind()
    }

    /// The start and the count, to look at them or to store them. Whoever stores them
    /// stores the state and the image with them.
    pub fn kept(&self) -> &Kept {
        &self.kept
    }

    /// The run.
    pub fn run(&self) -> &Run<'p> {
        &self.run
    }
}
