//! "Eight scripts, one store": eight runs that share 64 vectors. How many each has is
//! counted anew in its state wherever it is asked.

use crate::begin::question13;
use crate::bounds::{Integer, Steps, VECTORS};
use crate::instruction::Instruction;
use crate::program::Program;
use crate::questions::Refusal;
use crate::state::{End, State, Status};
use crate::steps::{Answer, Said};
use crate::trail::NOTHING_BEHIND;
use crate::watched::Watched;

/// The numbers of runs are below this.
pub const RUNS: usize = 8;

/// "21 when reserves sum above 64 or a run's number is above 7, at 0".
pub const NOT_IN_POOL: Refusal = Refusal {
    number: 21,
    offset: 0,
};

/// What a run begins with.
#[derive(Clone, PartialEq, Eq, Debug)]
pub struct Start {
    /// Its image.
    pub image: Vec<u8>,
    /// The level that it states.
    pub level: usize,
    /// The function and the version that it enters.
    pub entry: (usize, usize),
    /// Its argument words.
    pub words: Vec<Integer>,
}

impl Start {
    /// Its program and the state that the run begins in without a pool, or what refuses it.
    fn begin(&self, buffer: &[Integer]) -> Result<(Program, State), Refusal> {
        let program = Program::accept(&self.image)?;
        let (function, version) = self.entry;
        let state = State::begin(&program, self.level, function, version, &self.words, buffer)?;
        Ok((program, state))
    }
}

/// A run under a number, and the image that it goes on under.
pub struct Lodger {
    /// The image in force.
    pub image: Vec<u8>,
    /// The run. Demand 3 is asserted of each of its states.
    pub run: Watched,
}

/// The reserves of eight numbers, and the run of each that has one.
pub struct Pool {
    reserves: [u8; RUNS],
    runs: [Option<Lodger>; RUNS],
    /// What a failed assertion names.
    origin: String,
}

/// What each number reserves, and how many vectors its run has.
#[derive(Clone, Copy, PartialEq, Eq, Debug)]
pub struct Usage {
    /// The reserves.
    pub reserves: [usize; RUNS],
    /// How many each has.
    pub has: [usize; RUNS],
}

impl Usage {
    /// Does the run of a number get one more vector, while it has so many? "A run always gets
    /// vectors up to its reserve. Above it, it gets one exactly when those in use plus other
    /// runs' unused reserves are below 64."
    pub fn gets(&self, number: usize, own: usize) -> bool {
        let (mut in_use, mut unused) = (own, 0);
        for other in (0..RUNS).filter(|&other| other != number) {
            in_use += self.has[other];
            unused += self.reserves[other].saturating_sub(self.has[other]);
        }
        own < self.reserves[number] || in_use + unused < VECTORS
    }

    /// How many vectors the run of a number may have: it gets each up to there.
    pub fn may_have(&self, number: usize) -> usize {
        let refused = |&own: &usize| !self.gets(number, own);
        (0..).find(refused).expect("some number is the last")
    }
}

impl State {
    /// Does the next step need a vector? It executes VEC or DUP, and its operands are there.
    pub fn needs_vector(&self, program: &Program) -> bool {
        let instruction = self.instruction(program);
        let makes = matches!(
            instruction,
            Some(Instruction::Dup { .. } | Instruction::Vec { .. })
        );
        makes && self.status == Status::Running && self.clone().step(program).1 != Said::Stuck
    }

    /// "VECTORS, 0 steps and no live call".
    fn stopped_at_start(mut self) -> State {
        self.frames.clear();
        self.activations.clear();
        self.status = Status::Ended(End::Vectors);
        self
    }
}

impl Pool {
    /// A pool with these reserves; no number has a run.
    pub fn make(reserves: [u8; RUNS], origin: &str) -> Result<Pool, Refusal> {
        if reserves
            .iter()
            .map(|&reserve| usize::from(reserve))
            .sum::<usize>()
            > VECTORS
        {
            return Err(NOT_IN_POOL);
        }
        Ok(Pool {
            reserves,
            runs: [const { None }; RUNS],
            origin: origin.to_string(),
        })
    }

    /// The run of a number, if one was started.
    pub fn get(&self, number: usize) -> Option<&Lodger> {
        self.runs.get(number)?.as_ref()
    }

    /// The reserve of a number.
    pub fn reserve(&self, number: usize) -> usize {
        self.reserves[number].into()
    }

    /// How many vectors the run of a number has: those that are referred to. Those of an
    /// ended run count for nobody.
    pub fn has(&self, number: usize) -> usize {
        match self.get(number) {
            Some(lodger) if !lodger.run.ended() => lodger.run.state().counted_vectors().len(),
            _ => 0,
        }
    }

    /// What each number reserves and has now.
    pub fn usage(&self) -> Usage {
        Usage {
            reserves: self.reserves.map(usize::from),
            has: std::array::from_fn(|number| self.has(number)),
        }
    }

    /// 21, "asked before all else".
    fn question21(number: usize) -> Result<(), Refusal> {
        if number < RUNS {
            Ok(())
        } else {
            Err(NOT_IN_POOL)
        }
    }

    /// A start under a number. It "first ends the run that had it, unless the start is
    /// refused, which leaves that run and the pool unchanged".
    #[track_caller]
    pub fn start(
        &mut self,
        number: usize,
        start: &Start,
        buffer: &[Integer],
    ) -> Result<(), Refusal> {
        Pool::question21(number)?;
        let (program, mut state) = start.begin(buffer)?;
        self.runs[number] = None;
        if state.counted_vectors().len() > self.usage().may_have(number) {
            state = state.stopped_at_start();
        }
        let image = start.image.clone();
        let run = Watched::new(&program, state, start.level, &self.origin);
        self.runs[number] = Some(Lodger { image, run });
        Ok(())
    }

    /// A start and a budget in one.
    #[track_caller]
    pub fn run(
        &mut self,
        number: usize,
        start: &Start,
        budget: Steps,
        buffer: &mut [Integer],
    ) -> (Answer, Steps) {
        match self.start(number, start, buffer) {
            Err(refusal) => (Answer::Refused(refusal), 0),
            Ok(()) => {
                let ran = self.budget(number, budget, buffer);
                ran.expect("it was started")
            }
        }
    }

    /// A single step of the run of a number; none where it has no run.
    #[track_caller]
    pub fn step(&mut self, number: usize) -> Result<Option<Said>, Refusal> {
        Pool::question21(number)?;
        Ok(self.get(number).is_some().then(|| self.step_of(number)))
    }

    /// A single step of the run that a number has.
    #[track_caller]
    fn step_of(&mut self, number: usize) -> Said {
        let needs = self
            .get(number)
            .is_some_and(|lodger| lodger.run.needs_vector());
        let stops = needs && !self.usage().gets(number, self.has(number));
        let lodger = self.runs[number].as_mut().expect("it has a run");
        if stops {
            lodger.run.stop(End::Vectors);
        }
        lodger.run.step()
    }

    /// A budget of the run of a number, which is as many single steps; none where it has no
    /// run.
    #[track_caller]
    pub fn budget(
        &mut self,
        number: usize,
        budget: Steps,
        buffer: &mut [Integer],
    ) -> Option<(Answer, Steps)> {
        if let Err(refusal) = Pool::question21(number) {
            return Some((Answer::Refused(refusal), 0));
        }
        self.get(number)?;
        if let Err(refusal) = question13(buffer) {
            return Some((Answer::Refused(refusal), 0));
        }
        let mut taken = 0;
        loop {
            let run = &self.get(number)?.run;
            if let Status::Ended(end) = run.state().status {
                for (place, &item) in buffer.iter_mut().zip(&run.state().result) {
                    *place = item;
                }
                return Some((Answer::Ended(end), taken));
            }
            if taken == budget {
                return Some((Answer::Steps, taken));
            }
            taken += match self.step_of(number) {
                Said::GoesOn => 1,
                Said::Ended(end) => Steps::from(end.counts()),
                Said::Stuck => return Some((Answer::Stuck, taken)),
            };
        }
    }

    /// A change by 3) of the run of a number; none where it has no run.
    #[track_caller]
    pub fn change(&mut self, number: usize, new: &[u8]) -> Option<Result<(), Refusal>> {
        if let Err(refusal) = Pool::question21(number) {
            return Some(Err(refusal));
        }
        let lodger = self.runs[number].as_mut()?;
        let changed = lodger.run.change(&lodger.image, new);
        if changed.is_ok() {
            lodger.image = new.to_vec();
        }
        Some(changed)
    }

    /// "A state in the pool has no step behind it by 8)."
    pub fn back(&self, number: usize) -> Refusal {
        Pool::question21(number).err().unwrap_or(NOTHING_BEHIND)
    }
}
