//! The run of a number beside itself without a pool: what is heard is the same, up to where
//! VECTORS comes in the pool, and again from the next start that is not refused.

use differential::difference::difference;
use differential::engine::{answer_of, nothing_begun, refusal, said_of};
use differential::lent::Lent;
use differential::snapshot::state_of;
use library::{Entry, Program, Run, FIR_VECTORS};
use reference::bounds::Steps;
use reference::pool::Start;
use reference::{Answer, End, Refusal, Said};

/// The end of a run that has as many vectors as it may have.
const VECTORS: Answer = Answer::Ended(End::Vectors);

/// A run without a pool, beside one that has a number.
pub struct Alone {
    run: Run<'static>,
    /// VECTORS has come in the pool: nothing more is compared until the next start.
    stopped: bool,
    /// Does the number reserve all, so that nothing may differ?
    all: bool,
}

impl Alone {
    /// No run, under a number that reserves so many.
    pub fn new(reserve: u8) -> Alone {
        Alone {
            run: nothing_begun(),
            stopped: false,
            all: usize::from(reserve) == library::FIR_PLACES,
        }
    }

    /// Has VECTORS come in the pool, and not here?
    pub fn apart(&self) -> bool {
        self.stopped && self.run.state().status != FIR_VECTORS
    }

    /// Asserts that a run is in the state of this one; byte by byte where nothing may differ.
    #[track_caller]
    fn assert_beside(&self, run: &Run, origin: &str) {
        if self.stopped {
            assert!(!self.all, "{origin}: VECTORS under the reserve 64");
            assert_eq!(run.state().status, FIR_VECTORS, "{origin}: stopped");
            return;
        }
        if self.all {
            let same = self.run.state() == run.state();
            assert!(same, "{origin}: the bytes without a pool");
        }
        let (own, other) = (state_of(self.run.state()), state_of(run.state()));
        let different = match (own, other) {
            (Ok(own), Ok(other)) => difference(&own, &other),
            (own, other) => own.err().or(other.err()),
        };
        assert_eq!(different, None, "{origin}: without a pool");
    }

    /// A start, which began in the pool, or was refused by another question than 21. Where
    /// it has a budget, what that answered in the pool, and the buffer then.
    #[track_caller]
    pub fn start(&mut self, start: &Start, heard: &Started, run: &Run, origin: &str) {
        let (function, version) = start.entry;
        let entry = Entry { function, version };
        let Ok(program) = Program::load(&start.image[..]) else {
            assert!(heard.refused(), "{origin}: of a refused image");
            return;
        };
        let mut lent = Lent::new(heard.places, heard.event);
        let (level, words) = (start.level, &start.words[..]);
        let alone = self
            .run
            .restart(program, level, entry, words, lent.places());
        let alone = alone.map_err(refusal);
        if heard.refused() {
            assert_eq!(
                Err(heard.refusal()),
                alone,
                "{origin}: a start that is refused"
            );
            return;
        }
        assert_eq!(alone, Ok(()), "{origin}: a start");
        self.stopped = heard.overfull;
        if let Some((budget, answer, steps)) = heard.ran {
            let spent = Spent {
                budget,
                answer,
                steps,
            };
            self.budget(spent, lent, &heard.buffer, origin);
        }
        self.assert_beside(run, origin);
    }

    /// A single step, and what it said in the pool.
    #[track_caller]
    pub fn step(&mut self, heard: Said, run: &Run, origin: &str) {
        if !self.stopped {
            let said = said_of(self.run.step());
            if said != heard {
                assert_eq!(heard, Said::Ended(End::Vectors), "{origin}: apart");
                self.stopped = true;
            }
        }
        self.assert_beside(run, origin);
    }

    /// A budget with its answer in the pool, lent a buffer that is in the pool as it is now.
    #[track_caller]
    pub fn spend(&mut self, heard: Spent, lent: (Lent, &Lent), run: &Run, origin: &str) {
        self.budget(heard, lent.0, lent.1, origin);
        self.assert_beside(run, origin);
    }

    /// The budget itself.
    #[track_caller]
    fn budget(&mut self, heard: Spent, mut own: Lent, pooled: &Lent, origin: &str) {
        let untouched = own.clone();
        if self.stopped {
            let refused = matches!(heard.answer, Answer::Refused(_));
            assert!(refused || heard.answer == VECTORS, "{origin}: stopped");
            assert_eq!(heard.steps, 0, "{origin}: stopped");
            assert_eq!(untouched, *pooled, "{origin}: stopped, the buffer");
            return;
        }
        let ran = self.run.budget(heard.budget, own.places());
        let (answer, steps) = (answer_of(ran.answer), ran.steps);
        if (answer, steps) == (heard.answer, heard.steps) {
            assert_eq!(own, *pooled, "{origin}: the buffer");
            return;
        }
        assert_eq!(heard.answer, VECTORS, "{origin}: apart");
        assert!(heard.steps <= steps, "{origin}: {} of {steps}", heard.steps);
        assert_eq!(untouched, *pooled, "{origin}: VECTORS, the buffer");
        self.stopped = true;
    }

    /// A change, taken in the pool or refused by another question than 21.
    #[track_caller]
    pub fn change(&mut self, new: &[u8], heard: Result<(), Refusal>, run: &Run, origin: &str) {
        if !self.stopped {
            let program = Program::load(new);
            let program = program.unwrap_or_else(|_| Program::of_any_bytes(new, []));
            let changed = self.run.change(program).map_err(refusal);
            assert_eq!(heard, changed, "{origin}: a change");
        }
        self.assert_beside(run, origin);
    }
}

/// A budget, and what was heard in the pool.
#[derive(Clone, Copy)]
pub struct Spent {
    /// The steps given.
    pub budget: Steps,
    /// The answer.
    pub answer: Answer,
    /// The steps taken.
    pub steps: Steps,
}

/// What was heard of a start in the pool.
pub struct Started {
    /// What refused it, if anything.
    pub entry: Result<(), Refusal>,
    /// Did it stop at once?
    pub overfull: bool,
    /// The budget that came with it, its answer and its steps.
    pub ran: Option<(Steps, Answer, Steps)>,
    /// The places that were lent, the number of the ask, and the buffer afterwards.
    pub places: usize,
    /// The number of the ask.
    pub event: usize,
    /// The buffer afterwards.
    pub buffer: Lent,
}

impl Started {
    /// Was it refused?
    fn refused(&self) -> bool {
        self.entry.is_err()
    }

    /// What refused it.
    #[track_caller]
    fn refusal(&self) -> Refusal {
        self.entry.expect_err("it was refused")
    }
}
