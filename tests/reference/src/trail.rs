//! "Step back": a run with its start kept. Every state since the start is kept with it, so
//! that a step back is the state before.

use crate::bounds::{Integer, Steps};
use crate::questions::Refusal;
use crate::state::{State, Status};
use crate::steps::{Answer, Said};
use crate::watched::Watched;

/// The most steps that lie behind a state.
pub const REACH: u64 = 4_294_967_295;

/// The question that a step lies behind, at 0.
pub const NOTHING_BEHIND: Refusal = Refusal {
    number: 20,
    offset: 0,
};

/// A run with its start kept: the state that it began in, or that the last change of its
/// image carried over. Demand 3 is asserted of each state, those gone back to too.
pub struct Trail {
    run: Watched,
    /// The state after each number of steps since the start, from 0 on; none where more
    /// than the reach were taken.
    states: Vec<State>,
    /// The most steps that lie behind.
    reach: u64,
}

impl Trail {
    /// Keeps the state of a run as its start.
    pub fn start(run: Watched) -> Trail {
        Trail::with_reach(run, REACH)
    }

    /// The same where at most so many steps lie behind.
    pub fn with_reach(run: Watched, reach: u64) -> Trail {
        let states = vec![run.state().clone()];
        Trail { run, states, reach }
    }

    /// The run.
    pub fn run(&self) -> &Watched {
        &self.run
    }

    /// How many steps lie behind; none where too many were taken.
    pub fn behind(&self) -> Option<u64> {
        (self.states.len() as u64).checked_sub(1)
    }

    /// Keeps the state after one more step.
    fn keep(&mut self, state: State) {
        match self.behind() {
            Some(steps) if steps < self.reach => self.states.push(state),
            _ => self.states.clear(),
        }
    }

    /// A single step; what it says.
    #[track_caller]
    pub fn step(&mut self) -> Said {
        let ended = self.run.ended();
        let said = self.run.step();
        let counts = match said {
            Said::GoesOn => true,
            Said::Ended(end) => !ended && end.counts(),
            Said::Stuck => false,
        };
        if counts {
            self.keep(self.run.state().clone());
        }
        said
    }

    /// A budget; its answer and the steps taken under it.
    #[track_caller]
    pub fn budget(&mut self, budget: Steps, buffer: &mut [Integer]) -> (Answer, Steps) {
        let mut between = Vec::new();
        let keep = |run: &Watched| between.push(run.state().clone());
        let (answer, steps) = self.run.budget_seen(budget, buffer, keep);
        if between.len() < steps as usize {
            between.push(self.run.state().clone());
        }
        assert_eq!(between.len(), steps as usize, "a state for each step");
        for state in between {
            self.keep(state);
        }
        (answer, steps)
    }

    /// A change from the image in force to another. Where it is taken, the run goes back no
    /// further than it.
    #[track_caller]
    pub fn change(&mut self, old: &[u8], new: &[u8]) -> Result<(), Refusal> {
        self.run.change(old, new)?;
        self.states = vec![self.run.state().clone()];
        Ok(())
    }

    /// A step back, from an end too: the state that one step less gives. Where no step lies
    /// behind, the state stays.
    #[track_caller]
    pub fn back(&mut self) -> Result<(), Refusal> {
        if self.states.len() < 2 {
            return Err(NOTHING_BEHIND);
        }
        self.states.pop();
        let before = self.states.last().expect("a start").clone();
        assert_eq!(before.status, Status::Running, "the run went on from there");
        self.run.return_to(before);
        Ok(())
    }
}
