//! What eight runs reserve of 64 vectors and how many each has, and what is asked under a
//! number.

use crate::program::Program;
use crate::runs::{Answer, Ran, Said};
use crate::state::{End, State, Status, PLACES};
use crate::trails::BACK_QUESTION;

/// The numbers of runs are below this.
pub const RUNS: usize = 8;

/// The question to the reserves of a pool and to the number of a run.
pub const POOL_QUESTION: u8 = 21;

/// What each number reserves, and how many vectors its run has.
#[derive(Clone, Copy, PartialEq, Eq, Debug)]
pub struct Pool {
    /// The reserves.
    pub reserves: [u8; RUNS],
    /// What each has.
    pub has: [u8; RUNS],
}

/// The sum of all but that of a number.
fn sum_but(number: usize, list: [usize; RUNS]) -> usize {
    let all = list.iter().enumerate();
    let others = all.filter(|&(place, _)| place != number);
    others.map(|(_, count)| count).sum()
}

/// Do reserves sum above 64?
fn over_reserved(reserves: [u8; RUNS]) -> bool {
    reserves.map(usize::from).iter().sum::<usize>() > PLACES
}

impl State {
    /// What a run has in this state: those of an ended one count for nobody.
    fn has(&self) -> u8 {
        match self.status {
            Status::Running => self.vectors_in() as u8,
            Status::Ended(_) => 0,
        }
    }
}

impl Pool {
    /// How many the run of a number may have, while no other run moves.
    pub fn allowed(&self, number: usize) -> usize {
        let has = self.has.map(usize::from);
        let reserves = self.reserves.map(usize::from);
        let unused = std::array::from_fn(|place| reserves[place].saturating_sub(has[place]));
        let others = sum_but(number, has) + sum_but(number, unused);
        reserves[number].max(PLACES.saturating_sub(others))
    }

    /// 21, asked before all else.
    pub fn ask(&self, number: usize) -> Result<(), u8> {
        match over_reserved(self.reserves) || number >= RUNS {
            true => Err(POOL_QUESTION),
            false => Ok(()),
        }
    }

    /// The pool when the run of a number has come to a state.
    fn note(&mut self, number: usize, state: &State) {
        self.has[number] = state.has();
    }

    /// A pool that is made, or 21.
    pub fn make(reserves: [u8; RUNS]) -> Result<Pool, u8> {
        match over_reserved(reserves) {
            true => Err(POOL_QUESTION),
            false => Ok(Pool {
                reserves,
                has: [0; RUNS],
            }),
        }
    }

    /// A start under a number: what its beginning without a pool comes to, and the first
    /// state in the pool.
    pub fn begin(
        &mut self,
        number: usize,
        begin: impl FnOnce() -> Result<State, u8>,
    ) -> Result<State, u8> {
        self.ask(number)?;
        let mut state = begin()?;
        if state.vectors_in() > self.allowed(number) {
            (state.calls, state.depth) = (0, 0);
            state.status = Status::Ended(End::Vectors);
        }
        self.note(number, &state);
        Ok(state)
    }

    /// A single step under a number.
    pub fn step(&mut self, number: usize, program: Program, state: &mut State) -> Result<Said, u8> {
        self.ask(number)?;
        let said = state.step_with(self.allowed(number), program);
        self.note(number, state);
        Ok(said)
    }

    /// A budget under a number.
    pub fn budget(
        &mut self,
        number: usize,
        program: Program,
        state: &mut State,
        budget: u32,
        buffer: &mut [i64],
    ) -> Ran {
        if let Err(question) = self.ask(number) {
            let answer = Answer::Refused(question);
            return Ran { answer, steps: 0 };
        }
        let ran = state.budget_with(self.allowed(number), program, budget, buffer);
        if !matches!(ran.answer, Answer::Refused(_)) {
            self.note(number, state);
        }
        ran
    }

    /// The question that refuses a step back under a number.
    pub fn back(&self, number: usize) -> u8 {
        self.ask(number).err().unwrap_or(BACK_QUESTION)
    }
}
