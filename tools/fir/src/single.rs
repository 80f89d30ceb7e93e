//! A single step of a run, and whether it counts.

use library::{End, Run, Said, Trail, FIR_STEPS};

/// What takes single steps: a run, or one with its start kept.
pub trait Stepped {
    /// The run.
    fn seen(&self) -> &Run<'_>;
    /// Takes a single step.
    fn step_once(&mut self) -> Said;
}

impl Stepped for Run<'_> {
    fn seen(&self) -> &Run<'_> {
        self
    }

    fn step_once(&mut self) -> Said {
        self.step()
    }
}

impl Stepped for Trail<'_> {
    fn seen(&self) -> &Run<'_> {
        self.run()
    }

    fn step_once(&mut self) -> Said {
        self.step()
    }
}

/// What a single step came to.
pub struct Single {
    /// Does it count? Not where the run had ended before, or stopped at it.
    pub counts: bool,
    /// Does the run go on?
    pub goes_on: bool,
}

impl Single {
    /// Takes a single step.
    pub fn take(run: &mut impl Stepped) -> Single {
        let ended = run.seen().state().status != FIR_STEPS;
        let said = run.step_once();
        let counts = match said {
            Said::GoesOn => true,
            Said::Ended(End::Integer(_) | End::Vector(_) | End::Undef) => !ended,
            Said::Ended(_) | Said::Stuck => false,
        };
        Single {
            counts,
            goes_on: said == Said::GoesOn,
        }
    }
}
