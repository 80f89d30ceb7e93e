//! The single step and the budget, with their answers.

use crate::program::Program;
use crate::state::{End, Halt, State, Status, Try, ITEMS};

/// What a single step says.
#[derive(Clone, Copy, PartialEq, Eq, Debug)]
pub enum Said {
    /// The run goes on.
    GoesOn,
    /// It ended so, with this step or before it.
    Ended(End),
    /// The step was stuck.
    Stuck,
}

/// What a budget answers.
#[derive(Clone, Copy, PartialEq, Eq, Debug)]
pub enum Answer {
    /// A question refuses it.
    Refused(u8),
    /// It is used up.
    Steps,
    /// The run ended so, under it or before it.
    Ended(End),
    /// A step was stuck.
    Stuck,
}

/// What a budget gives.
#[derive(Clone, Copy, PartialEq, Eq, Debug)]
pub struct Ran {
    /// Its answer.
    pub answer: Answer,
    /// The steps taken.
    pub steps: u32,
}

/// The question to the length of a buffer, and the fewest places that it asks for.
pub const BUFFER_QUESTION: u8 = 13;
const FEWEST: usize = ITEMS;

/// Is a buffer of so many places long enough?
pub fn long_enough(places: usize) -> bool {
    places >= FEWEST
}

impl End {
    /// Does the step that makes this end count?
    pub fn counts(self) -> bool {
        matches!(self, End::Integer(_) | End::Vector(_) | End::Undef)
    }
}

impl State {
    /// Takes a single step. Where it is stuck, or the run had ended, nothing changes; where
    /// it stops the run, nothing but that the run has ended.
    pub fn step(&mut self, program: Program) -> Said {
        self.step_by(|next| next.advance(program))
    }

    /// The same of a run that may have so many vectors.
    pub fn step_with(&mut self, most: usize, program: Program) -> Said {
        self.step_by(|next| next.advance_with(most, program))
    }

    /// Takes a single step that comes to this.
    fn step_by(&mut self, advance: impl FnOnce(&mut State) -> Try<()>) -> Said {
        if let Status::Ended(end) = self.status {
            return Said::Ended(end);
        }
        let mut next = self.clone();
        match advance(&mut next) {
            Ok(()) => *self = next,
            Err(Halt::Stuck) => return Said::Stuck,
            Err(Halt::Stop(end)) => self.status = Status::Ended(end),
        }
        match self.status {
            Status::Running => Said::GoesOn,
            Status::Ended(end) => Said::Ended(end),
        }
    }

    /// Takes at most so many steps, with a lent buffer.
    pub fn budget(&mut self, program: Program, budget: u32, buffer: &mut [i64]) -> Ran {
        self.budget_by(buffer, |state| state.run(program, budget))
    }

    /// The same of a run that may have so many vectors.
    pub fn budget_with(
        &mut self,
        most: usize,
        program: Program,
        budget: u32,
        buffer: &mut [i64],
    ) -> Ran {
        self.budget_by(buffer, |state| {
            state.run_by(budget, |state| state.step_with(most, program))
        })
    }

    /// Runs as is said, with a lent buffer.
    fn budget_by(&mut self, buffer: &mut [i64], run: impl FnOnce(&mut State) -> Ran) -> Ran {
        if !long_enough(buffer.len()) {
            let answer = Answer::Refused(BUFFER_QUESTION);
            return Ran { answer, steps: 0 };
        }
        let ran = run(self);
        if let Answer::Ended(End::Vector(length)) = ran.answer {
            let items = self.result.iter().take(length.into());
            for (place, &item) in buffer.iter_mut().zip(items) {
                *place = item;
            }
        }
        ran
    }

    /// Takes at most so many steps.
    pub fn run(&mut self, program: Program, budget: u32) -> Ran {
        self.run_by(budget, |state| state.step(program))
    }

    /// Takes at most so many of these steps.
    fn run_by(&mut self, budget: u32, mut step: impl FnMut(&mut State) -> Said) -> Ran {
        if let Status::Ended(end) = self.status {
            let answer = Answer::Ended(end);
            return Ran { answer, steps: 0 };
        }
        for steps in 0..budget {
            match step(self) {
                Said::GoesOn => {}
                Said::Ended(end) => {
                    let (answer, steps) = (Answer::Ended(end), steps + u32::from(end.counts()));
                    return Ran { answer, steps };
                }
                Said::Stuck => {
                    let answer = Answer::Stuck;
                    return Ran { answer, steps };
                }
            }
        }
        let answer = Answer::Steps;
        Ran {
            answer,
            steps: budget,
        }
    }
}
