//! Runs of the proved library, each held to the bound of its entry.

use library::{Bound, Run, FIR_STEPS};
use reference::bounds::Steps;
use reference::Said;
use std::ops::Deref;

/// A run whose steps are counted. While no change of its image was taken, they are no
/// more than the bound that the library gives for its entry, if it gives one: each step
/// and each budget asserts it.
#[derive(Clone)]
pub struct Paced<'i> {
    run: Run<'i>,
    /// The bound of the entry; none where there is none to hold to.
    bound: Option<Steps>,
    /// The steps taken in all.
    taken: u64,
    /// Whether they were as many as the bound when the run ended, if it was held to it then.
    exactly: Option<bool>,
}

impl<'i> Deref for Paced<'i> {
    type Target = Run<'i>;

    fn deref(&self) -> &Run<'i> {
        &self.run
    }
}

impl<'i> Paced<'i> {
    /// A run that is held to nothing.
    pub fn free(run: Run<'i>) -> Paced<'i> {
        Paced {
            run,
            bound: None,
            taken: 0,
            exactly: None,
        }
    }

    /// A run that has begun at an entry of its image, and has taken so many steps since.
    #[track_caller]
    pub fn begun(run: Run<'i>, entry: (usize, usize), taken: Steps) -> Paced<'i> {
        let rows = library::bounds(run.image());
        let rows = rows.expect("a run begins of an accepted image");
        let mut rows = rows.iter();
        let row = rows.find(|row| (row.function.into(), row.version.into()) == entry);
        let bound = match row.expect("each version has a row").bound {
            Bound::Steps(steps) => Some(steps),
            Bound::Large | Bound::None => None,
        };
        let mut paced = Paced {
            run,
            bound,
            taken: 0,
            exactly: None,
        };
        paced.count(taken.into());
        paced
    }

    /// Counts steps.
    #[track_caller]
    fn count(&mut self, steps: u64) {
        self.taken += steps;
        let taken = self.taken;
        if let Some(bound) = self.bound.filter(|&bound| taken > bound.into()) {
            let image = text::listing(self.run.image());
            panic!("{taken} steps, and the bound is {bound}\n{image}");
        }
        if !self.goes_on() && self.exactly.is_none() {
            self.exactly = self.bound.map(|bound| taken == bound.into());
        }
    }

    /// Does something with the run that takes steps; what it gives.
    #[track_caller]
    pub fn stepped<T>(
        &mut self,
        act: impl FnOnce(&mut Run<'i>) -> T,
        count: impl FnOnce(&T) -> u64,
    ) -> T {
        let given = act(&mut self.run);
        self.count(count(&given));
        given
    }

    /// Changes the image; from then on the run is held to nothing.
    pub fn changed<T, E>(
        &mut self,
        act: impl FnOnce(&mut Run<'i>) -> Result<T, E>,
    ) -> Result<T, E> {
        let changed = act(&mut self.run);
        if changed.is_ok() {
            self.bound = None;
        }
        changed
    }

    /// Does the run go on?
    pub fn goes_on(&self) -> bool {
        self.run.state().status == FIR_STEPS
    }

    /// The bound that it is held to; none where there is none.
    pub fn bound(&self) -> Option<Steps> {
        self.bound
    }

    /// The steps taken in all.
    pub fn taken(&self) -> u64 {
        self.taken
    }

    /// Whether its steps were as many as its bound when it ended; none where it goes on,
    /// or was not held to a bound then.
    pub fn met_exactly(&self) -> Option<bool> {
        self.exactly
    }
}

/// The steps that a single step of a run takes that goes on, or does not, before it.
pub fn steps_of(goes_on: bool, said: Said) -> u64 {
    match said {
        _ if !goes_on => 0,
        Said::GoesOn => 1,
        Said::Ended(end) => end.counts().into(),
        Said::Stuck => 0,
    }
}
