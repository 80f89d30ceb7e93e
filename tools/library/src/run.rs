//! A run: its state, and the program that it goes on under.

#![allow(unsafe_code)] // The library is called across a C boundary.

use crate::answers::{Held, Position, Ran, Refusal, Said, Search};
use crate::constants::{FIR_FACTORY, FIR_PORTAL, FIR_STAFF};
use crate::program::Program;
use crate::raw;
use crate::state::{assert_layout, State};
use std::borrow::Cow;

/// The level of the tenants' portal.
pub const PORTAL: usize = FIR_PORTAL;
/// The level of site staff.
pub const STAFF: usize = FIR_STAFF;
/// The level of the factory, the highest; each number above it counts as it.
pub const FACTORY: usize = FIR_FACTORY;

/// The version that a run enters.
#[derive(Clone, Copy, PartialEq, Eq, Debug)]
pub struct Entry {
    /// Its function.
    pub function: usize,
    /// Its number within the function.
    pub version: usize,
}

/// A run: its state, and the program in force, borrowed or owned. Steps and budgets go
/// by that program, and [`Run::change`] alone puts another in its place.
#[derive(Clone)]
pub struct Run<'p> {
    program: Cow<'p, Program>,
    state: State,
}

impl<'p> Run<'p> {
    /// Begins a run at a level. The buffer is asked for its length only. Nothing of
    /// the level is kept: no version above it is ever entered, and at each higher
    /// level the run is the same.
    pub fn begin(
        program: impl Into<Cow<'p, Program>>,
        level: usize,
        entry: Entry,
        words: &[i64],
        buffer: &[i64],
    ) -> Result<Run<'p>, Refusal> {
        let mut state = State::blank();
        let program = program.into();
        begin_in(&mut state, &program, level, entry, words, buffer)?;
        Ok(Run { program, state })
    }

    /// Goes on from a stored state. The caller owes the program of the image that was
    /// in force when the state was stored, byte for byte: nothing in the state names
    /// it, and nothing can test it. Under another one every call still answers and
    /// keeps to its memory, but nothing that is promised of a begun run holds.
    pub fn resume_with_its_own_program(
        state: State,
        program: impl Into<Cow<'p, Program>>,
    ) -> Run<'p> {
        let program = program.into();
        Run { program, state }
    }

    /// Begins another run in place of this one, which stays as it was, under its
    /// program, where the other is refused.
    pub fn restart(
        &mut self,
        program: impl Into<Cow<'p, Program>>,
        level: usize,
        entry: Entry,
        words: &[i64],
        buffer: &[i64],
    ) -> Result<(), Refusal> {
        let program = program.into();
        begin_in(&mut self.state, &program, level, entry, words, buffer)?;
        self.program = program;
        Ok(())
    }

    /// Begins another run in place of this one and takes at most so many steps;
    /// this one stays as it was, under its program, where the other is refused.
    pub fn rerun(
        &mut self,
        program: impl Into<Cow<'p, Program>>,
        level: usize,
        entry: Entry,
        words: &[i64],
        budget: u32,
        buffer: &mut [i64],
    ) -> Ran {
        assert_layout();
        let program = program.into();
        let (image, table) = (program.image(), program.table());
        // SAFETY: as in `begin_in`; the buffer, which is written too, is lent by a
        // `&mut` of its own.
        let ran = unsafe {
            raw::fir_run(
                image.as_ptr(),
                image.len(),
                table.as_ptr(),
                table.len(),
                level,
                entry.function,
                entry.version,
                words.as_ptr(),
                words.len(),
                budget,
                buffer.as_mut_ptr(),
                buffer.len(),
                &mut self.state,
            )
        };
        let ran = Ran::from(ran);
        if !ran.is_refused() {
            self.program = program;
        }
        ran
    }

    /// Takes a single step.
    pub fn step(&mut self) -> Said {
        assert_layout();
        let (image, table) = (self.program.image(), self.program.table());
        let (bytes, places) = (image.len(), table.len());
        let state = &mut self.state;
        // SAFETY: as in `begin_in`.
        unsafe { raw::fir_step(image.as_ptr(), bytes, table.as_ptr(), places, state) }.into()
    }

    /// Takes at most so many steps. A vector that the run is DONE with is
    /// written to the buffer from place 0 on; all else in the buffer stays.
    pub fn budget(&mut self, budget: u32, buffer: &mut [i64]) -> Ran {
        assert_layout();
        let (image, table) = (self.program.image(), self.program.table());
        // SAFETY: as in `rerun`.
        let ran = unsafe {
            raw::fir_budget(
                image.as_ptr(),
                image.len(),
                table.as_ptr(),
                table.len(),
                &mut self.state,
                budget,
                buffer.as_mut_ptr(),
                buffer.len(),
            )
        };
        ran.into()
    }

    /// May the run go on under the program of this image?
    pub fn may_change(&self, image: &[u8]) -> Result<(), Refusal> {
        assert_layout();
        let old = self.program.image();
        // SAFETY: the slices lend what their lengths say and the state is one
        // of the library's layout; all three are only read.
        let changed = unsafe {
            raw::fir_change(
                old.as_ptr(),
                old.len(),
                image.as_ptr(),
                image.len(),
                &self.state,
            )
        };
        changed.into()
    }

    /// Goes on under a new program; where its image is refused, under the old one.
    /// The state is the same either way.
    pub fn change(&mut self, program: impl Into<Cow<'p, Program>>) -> Result<(), Refusal> {
        let program = program.into();
        self.may_change(program.image())?;
        self.program = program;
        Ok(())
    }

    /// What the search of the DISPATCH comes to that the run stands at, ended or
    /// not: where its next step is one, where it was UNDEF since no version fits,
    /// or stopped with DEEP. None where it stands elsewhere; a run that is DONE
    /// stands nowhere.
    pub fn search(&self) -> Option<Search> {
        assert_layout();
        let (image, table) = (self.program.image(), self.program.table());
        let (bytes, places) = (image.len(), table.len());
        let state = &self.state;
        // SAFETY: the slices lend what their lengths say and the state is one of
        // the library's layout; all three are only read.
        unsafe { raw::fir_search(image.as_ptr(), bytes, table.as_ptr(), places, state) }.into()
    }

    /// Where the run stands, ended or not: at what its next step executes, and after
    /// UNDEF, DEEP, VECTORS or PROMISES at what made it. None where it is DONE.
    pub fn position(&self) -> Option<Position> {
        assert_layout();
        let (image, table) = (self.program.image(), self.program.table());
        let (bytes, places) = (image.len(), table.len());
        let state = &self.state;
        // SAFETY: as in `search`.
        unsafe { raw::fir_where(image.as_ptr(), bytes, table.as_ptr(), places, state) }.into()
    }

    /// What a place of a live call holds: registers are the places 0 to 15,
    /// names the places 16 to 23. None where there is no such place.
    pub fn look(&self, call: usize, place: usize) -> Option<Held> {
        self.state.look(call, place)
    }

    /// The program in force, and the state to be written.
    pub(crate) fn lent(&mut self) -> (&Program, &mut State) {
        (&self.program, &mut self.state)
    }

    /// Puts a program in force, which a change to it was accepted for.
    pub(crate) fn put_in_force(&mut self, program: Cow<'p, Program>) {
        self.program = program;
    }

    /// A run of the program in force in another state.
    pub(crate) fn in_state(&self, state: State) -> Run<'p> {
        let program = self.program.clone();
        Run { program, state }
    }

    /// The state, to look at it or to store it. Whoever stores it stores the
    /// image with it.
    pub fn state(&self) -> &State {
        &self.state
    }

    /// The program in force.
    pub fn program(&self) -> &Program {
        &self.program
    }

    /// The image in force.
    pub fn image(&self) -> &[u8] {
        self.program.image()
    }
}

/// Begins a run of a program in a state, which stays as it was where it is refused.
fn begin_in(
    state: &mut State,
    program: &Program,
    level: usize,
    entry: Entry,
    words: &[i64],
    buffer: &[i64],
) -> Result<(), Refusal> {
    assert_layout();
    let (image, table) = (program.image(), program.table());
    // SAFETY: the slices lend what their lengths say and the state is one of the
    // library's layout; it alone is written, and `&mut` shares it with none of them.
    let begun = unsafe {
        raw::fir_begin(
            image.as_ptr(),
            image.len(),
            table.as_ptr(),
            table.len(),
            level,
            entry.function,
            entry.version,
            words.as_ptr(),
            words.len(),
            buffer.as_ptr(),
            buffer.len(),
            state,
        )
    };
    begun.into()
}
