//! "Steps": a budget, and what it answers.

use super::Said;
use crate::begin::question13;
use crate::bounds::{Integer, Steps};
use crate::form::Range;
use crate::program::Program;
use crate::questions::Refusal;
use crate::state::{End, State, Status};

/// What a budget answers.
#[derive(Clone, Copy, PartialEq, Eq, Debug)]
pub enum Answer {
    /// The lent buffer was refused by 13.
    Refused(Refusal),
    /// STEPS: the budget was used before the run ended.
    Steps,
    /// The run ended so, under this budget or before it.
    Ended(End),
    /// A step was stuck, which no run reaches.
    Stuck,
}

impl End {
    /// Does the step that makes this end count? A step stopped by DEEP,
    /// VECTORS or PROMISES does not.
    pub fn counts(self) -> bool {
        match self {
            End::Integer(_) | End::Vector(_) | End::Undef => true,
            End::Deep | End::Vectors | End::Promises => false,
        }
    }
}

impl State {
    /// The state after a budget, its answer, and the steps taken under it. The
    /// items of a vector result are written from place 0 on.
    pub fn budget(
        self,
        program: &Program,
        budget: Steps,
        buffer: &mut [Integer],
    ) -> (State, Answer, Steps) {
        self.budget_to(Range::WIDE, program, budget, buffer)
    }

    /// The same with integers in a range.
    pub fn budget_to(
        self,
        range: Range,
        program: &Program,
        budget: Steps,
        buffer: &mut [Integer],
    ) -> (State, Answer, Steps) {
        if let Err(refusal) = question13(buffer) {
            return (self, Answer::Refused(refusal), 0);
        }
        let (mut state, mut taken) = (self, 0);
        while state.status == Status::Running {
            if taken == budget {
                return (state, Answer::Steps, taken);
            }
            let (next, said) = state.step_to(range, program);
            state = next;
            match said {
                Said::GoesOn => taken += 1,
                Said::Ended(end) => taken += Steps::from(end.counts()),
                Said::Stuck => return (state, Answer::Stuck, taken),
            }
        }
        let Status::Ended(end) = state.status else {
            unreachable!("the run has ended");
        };
        for (place, &item) in buffer.iter_mut().zip(&state.result) {
            *place = item;
        }
        (state, Answer::Ended(end), taken)
    }
}
