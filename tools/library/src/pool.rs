//! Eight runs and the store of vectors that they share.

use crate::answers::{Ran, Refusal, Said};
use crate::constants::{FIR_REFUSED_POOL, FIR_RUNS};
use crate::program::Program;
use crate::run::Run;
use crate::state::State;
use crate::store::{Start, Store};
use std::borrow::Cow;
use std::fmt;

/// The number of a run in a pool: 0 to 7.
#[derive(Clone, Copy, PartialEq, Eq, PartialOrd, Ord, Hash, Debug)]
pub struct Number(u8);

impl Number {
    /// All numbers, in order.
    pub const ALL: [Number; FIR_RUNS] = [
        Number(0),
        Number(1),
        Number(2),
        Number(3),
        Number(4),
        Number(5),
        Number(6),
        Number(7),
    ];

    /// The number, if it is one: none above 7.
    pub fn new(number: usize) -> Option<Number> {
        Number::ALL.get(number).copied()
    }

    /// The number as a place in an array.
    pub fn get(self) -> usize {
        self.0.into()
    }
}

impl fmt::Display for Number {
    fn fmt(&self, formatter: &mut fmt::Formatter) -> fmt::Result {
        self.0.fmt(formatter)
    }
}

/// Eight runs that share 64 vectors. Each run stands in the pool under its number, with the
/// program that it goes on under, and goes on by the calls of the pool alone: so the pool
/// knows how many vectors each has.
///
/// A run always gets vectors up to its reserve; above it, while those in use and the unused
/// reserves of the others are below 64 together. Else it ends with
/// [`End::Vectors`](crate::End::Vectors).
#[derive(Clone)]
pub struct Pool<'p> {
    store: Store,
    runs: [Option<Run<'p>>; FIR_RUNS],
}

impl<'p> Pool<'p> {
    /// A pool in which each number reserves so many vectors and has no run; or 21, where the
    /// reserves sum above 64.
    pub fn new(reserves: [u8; FIR_RUNS]) -> Result<Pool<'p>, Refusal> {
        let store = Store::make(reserves)?;
        let runs = [const { None }; FIR_RUNS];
        Ok(Pool { store, runs })
    }

    /// Goes on with a store and its runs, which were stored; or 21, where its reserves sum
    /// above 64. The caller owes that they belong together: nothing can test it. Every call
    /// still answers and keeps to its memory where they do not, but nothing is promised of
    /// how many vectors there are together.
    pub fn resume_with_its_own_runs(
        store: Store,
        runs: [Option<Run<'p>>; FIR_RUNS],
    ) -> Result<Pool<'p>, Refusal> {
        match store.back(0) {
            no if no.question == FIR_REFUSED_POOL => Err(no),
            _ => Ok(Pool { store, runs }),
        }
    }

    /// Starts a run under a number. The run that had the number ends, unless the start is
    /// refused: then that run and the pool are as they were. Where the arguments need more
    /// vectors than the run may have, it has begun and ended with VECTORS. The buffer is
    /// asked for its length only.
    pub fn start(
        &mut self,
        number: Number,
        program: impl Into<Cow<'p, Program>>,
        start: Start,
        buffer: &[i64],
    ) -> Result<(), Refusal> {
        let place = number.get();
        let had = self.runs[place].is_some();
        let run = self.runs[place].get_or_insert_with(nothing_begun);
        let begun = self.store.begin(place, run, program, start, buffer);
        if begun.is_err() && !had {
            self.runs[place] = None;
        }
        begun
    }

    /// Starts a run under a number, as [`Pool::start`] does, and takes at most so many steps.
    pub fn run(
        &mut self,
        number: Number,
        program: impl Into<Cow<'p, Program>>,
        start: Start,
        budget: u32,
        buffer: &mut [i64],
    ) -> Ran {
        let place = number.get();
        let had = self.runs[place].is_some();
        let run = self.runs[place].get_or_insert_with(nothing_begun);
        let ran = self.store.run(place, run, program, start, budget, buffer);
        if ran.is_refused() && !had {
            self.runs[place] = None;
        }
        ran
    }

    /// Takes a single step of the run of a number; none where it has no run.
    pub fn step(&mut self, number: Number) -> Option<Said> {
        let run = self.runs[number.get()].as_mut()?;
        let said = self.store.step(number.get(), run);
        Some(said.expect("the reserves of a pool sum to at most 64"))
    }

    /// Takes at most so many steps of the run of a number; none where it has no run. A vector
    /// that the run is DONE with is written to the buffer from place 0 on; all else in the
    /// buffer stays.
    pub fn budget(&mut self, number: Number, budget: u32, buffer: &mut [i64]) -> Option<Ran> {
        let run = self.runs[number.get()].as_mut()?;
        Some(self.store.budget(number.get(), run, budget, buffer))
    }

    /// The run of a number goes on under a new program; where its image is refused, under the
    /// old one. State and pool are the same either way. None where it has no run.
    pub fn change(
        &mut self,
        number: Number,
        program: impl Into<Cow<'p, Program>>,
    ) -> Option<Result<(), Refusal>> {
        let run = self.runs[number.get()].as_mut()?;
        Some(self.store.change(number.get(), run, program))
    }

    /// Why no run of the pool takes a step back: 20.
    pub fn back(&self, number: Number) -> Refusal {
        self.store.back(number.get())
    }

    /// The run of a number, to look at it; none where none was started.
    pub fn get(&self, number: Number) -> Option<&Run<'p>> {
        self.runs[number.get()].as_ref()
    }

    /// How many vectors a number reserves.
    pub fn reserve(&self, number: Number) -> usize {
        self.store.reserves[number.get()].into()
    }

    /// How many vectors its run has: those that count while it has not ended, else 0.
    pub fn has(&self, number: Number) -> usize {
        self.store.has[number.get()].into()
    }

    /// How many vectors its run may have while no other run moves.
    pub fn may_have(&self, number: Number) -> usize {
        self.store.may_have(number.get())
    }

    /// The store, to look at it or to store it. Whoever stores it stores the state and the
    /// image of each run with it.
    pub fn store(&self) -> &Store {
        &self.store
    }
}

/// A run that has not begun, for a start to write.
fn nothing_begun<'p>() -> Run<'p> {
    Run::resume_with_its_own_program(State::blank(), Program::of_any_bytes([], []))
}
