//! A state with its start kept, and the step back.

use crate::program::Program;
use crate::runs::{Ran, Said};
use crate::state::{State, Status};

/// The question that a step lies behind.
pub const BACK_QUESTION: u8 = 20;

/// How many steps lie behind a state.
#[derive(Clone, Copy, PartialEq, Eq, Debug)]
pub enum Behind {
    /// So many.
    Steps(u32),
    /// None any more: more were taken than a count holds.
    Past,
}

impl Behind {
    /// What the numbers of a trail stand for, whatever they are.
    pub fn read(steps: u32, past: u8) -> Behind {
        match past {
            0 => Behind::Steps(steps),
            _ => Behind::Past,
        }
    }

    /// So many steps more.
    fn further(self, more: u32) -> Behind {
        match self {
            Behind::Steps(steps) => steps.checked_add(more).map_or(Behind::Past, Behind::Steps),
            Behind::Past => Behind::Past,
        }
    }
}

/// A state with its start kept.
#[derive(Clone, PartialEq, Eq, Debug)]
pub struct Trail {
    /// The start.
    pub start: State,
    /// How many steps lie behind the state.
    pub behind: Behind,
    /// The state.
    pub state: State,
}

/// The steps that a single step takes, by the status before it: those that a budget counts.
fn steps_by(status: Status, said: Said) -> u32 {
    match (status, said) {
        (Status::Ended(_), _) | (_, Said::Stuck) => 0,
        (_, Said::GoesOn) => 1,
        (_, Said::Ended(end)) => end.counts().into(),
    }
}

impl Trail {
    /// A start: no step lies behind.
    pub fn started(state: State) -> Trail {
        Trail {
            start: state.clone(),
            behind: Behind::Steps(0),
            state,
        }
    }

    /// Takes a single step.
    pub fn step(&mut self, program: Program) -> Said {
        let status = self.state.status;
        let said = self.state.step(program);
        self.behind = self.behind.further(steps_by(status, said));
        said
    }

    /// Takes at most so many steps, with a lent buffer.
    pub fn budget(&mut self, program: Program, budget: u32, buffer: &mut [i64]) -> Ran {
        let ran = self.state.budget(program, budget, buffer);
        self.behind = self.behind.further(ran.steps);
        ran
    }

    /// A change of the image that is taken: a new start.
    pub fn change(&mut self) {
        *self = Trail::started(self.state.clone());
    }

    /// Takes a step back, or says which question refuses it.
    pub fn back(&mut self, program: Program) -> Result<(), u8> {
        let Behind::Steps(steps) = self.behind else {
            return Err(BACK_QUESTION);
        };
        let less = steps.checked_sub(1).ok_or(BACK_QUESTION)?;
        self.state = self.start.clone();
        self.state.run(program, less);
        self.behind = Behind::Steps(less);
        Ok(())
    }
}
