//! The runs of a plan, and how they go on in turn.

use super::plan::{Deed, Plan, What};
use super::show::{Done, Row, Telling};
use crate::arguments::words;
use crate::command::Call;
use crate::failure::{Failure, Status};
use crate::refusal;
use crate::running::answered;
use crate::source::Source;
use crate::streams::Streams;
use crate::telling;
use library::{Answer, End, Number, Pool, Program, Ran, Said, Start, FIR_ITEMS, FIR_RUNS};

/// A run of the plan.
struct Lodger<'s> {
    /// The image in force.
    source: &'s Source,
    /// What it has come to, and the steps that it took.
    answer: Answer,
    steps: u32,
    /// The items of a vector that it is DONE with.
    buffer: [i64; FIR_ITEMS],
    /// What it might have in its last turn.
    might_have: usize,
    /// Was its end printed?
    told: bool,
}

/// A pool with the runs of a plan.
pub struct House<'s> {
    pool: Pool<'static>,
    plan: &'s Plan,
    telling: Telling,
    lodgers: [Option<Lodger<'s>>; FIR_RUNS],
    /// The most vectors that each number had, where they are counted.
    most: [usize; FIR_RUNS],
    /// The rounds so far.
    round: u32,
    /// The worst of what was refused.
    status: Status,
}

/// A number of a plan, all of whose numbers were asked.
fn number_of(deed: &Deed) -> Number {
    Number::new(deed.number).expect("the numbers of the plan were asked")
}

impl<'s> House<'s> {
    /// A pool before its first round.
    pub fn new(pool: Pool<'static>, plan: &'s Plan, telling: Telling) -> House<'s> {
        House {
            pool,
            plan,
            telling,
            lodgers: [const { None }; FIR_RUNS],
            most: [0; FIR_RUNS],
            round: 0,
            status: Status::Yes,
        }
    }

    /// Does all of the plan; the exit status.
    pub fn run(mut self, sources: &'s [Source], streams: &mut Streams) -> Result<Status, Failure> {
        let told = self.rounds(sources, streams);
        let status = self.lodgers.iter().flatten();
        let status = status.map(|lodger| telling::status(lodger.answer));
        let status = status.fold(self.status, Status::worse);
        answered(status, told)
    }

    /// The rounds of the plan.
    fn rounds(&mut self, sources: &'s [Source], streams: &mut Streams) -> Result<(), Failure> {
        let plan = self.plan;
        let mut deeds = plan.deeds.iter().zip(sources).peekable();
        loop {
            while let Some((deed, source)) = deeds.next_if(|(deed, _)| deed.after <= self.round) {
                self.act(deed, source, streams)?;
            }
            let next = deeds.peek().map(|(deed, _)| deed.after);
            if self.round == plan.rounds || (!self.goes_on() && next.is_none()) {
                break;
            }
            match next {
                Some(round) if !self.goes_on() => self.round = round.min(plan.rounds),
                _ => self.one_round(streams)?,
            }
        }
        let left = deeds.map(|(deed, _)| deed);
        for deed in left {
            self.telling.not_reached(deed, streams)?;
        }
        self.telling.most(&self.pool, &self.most, streams)
    }

    /// Does some run go on?
    fn goes_on(&self) -> bool {
        let mut lodgers = self.lodgers.iter().flatten();
        lodgers.any(|lodger| lodger.answer == Answer::Steps)
    }

    /// A start or a change.
    fn act(&mut self, deed: &Deed, new: &'s Source, streams: &mut Streams) -> Result<(), Failure> {
        match &deed.what {
            What::Run(call) => self.start(number_of(deed), call, new, streams),
            What::Change(_) => self.change(number_of(deed), new, streams),
        }
    }

    /// Something done now, with an image.
    fn done(&self, number: Number, source: &'s Source) -> Done<'s> {
        let round = self.round;
        Done {
            round,
            number,
            source,
        }
    }

    /// Starts a run under a number; where it is refused, the one that it had goes on.
    fn start(
        &mut self,
        number: Number,
        call: &Call,
        source: &'s Source,
        streams: &mut Streams,
    ) -> Result<(), Failure> {
        let done = self.done(number, source);
        let words = words(&call.arguments);
        let start = Start {
            level: call.level,
            entry: call.entry,
            words: &words,
        };
        let mut buffer = [0; FIR_ITEMS];
        let may_have = self.pool.may_have(number);
        let begun = Program::load(&source.image[..])
            .and_then(|program| self.pool.start(number, program, start, &buffer));
        if let Err(no) = begun {
            self.status = Status::No;
            let refused = refusal::of_run(source, no, call);
            return self.telling.refused(done, &refused, streams);
        }
        let ran = self.pool.budget(number, 0, &mut buffer);
        let Ran { answer, steps } = ran.expect("it was started");
        self.most[number.get()] = self.most[number.get()].max(self.pool.has(number));
        self.lodgers[number.get()] = Some(Lodger {
            source,
            answer,
            steps,
            buffer,
            might_have: may_have,
            told: false,
        });
        let full = (answer != Answer::Steps).then_some(may_have);
        self.telling.started(done, full, streams)
    }

    /// Goes on under another image, unless that is refused.
    fn change(
        &mut self,
        number: Number,
        new: &'s Source,
        streams: &mut Streams,
    ) -> Result<(), Failure> {
        let done = self.done(number, new);
        let Some(lodger) = &mut self.lodgers[number.get()] else {
            self.status = Status::No;
            return self.telling.no_run(done, streams);
        };
        let changed = Program::load(&new.image[..]).and_then(|program| {
            let changed = self.pool.change(number, program);
            changed.expect("a run that was started")
        });
        let Err(no) = changed else {
            lodger.source = new;
            return self.telling.changed(done, streams);
        };
        self.status = Status::No;
        let run = self.pool.get(number).expect("a run that was started");
        let refused = refusal::of_change(lodger.source, new, no, run.state());
        self.telling.refused(done, &refused, streams)
    }

    /// A turn for each run that goes on, and a table of all.
    fn one_round(&mut self, streams: &mut Streams) -> Result<(), Failure> {
        self.round += 1;
        for number in Number::ALL {
            self.turn(number);
        }
        let rows: Vec<Row> = Number::ALL.iter().filter_map(|&n| self.row(n)).collect();
        let shown = self.telling.round(self.round, &rows, streams);
        for lodger in self.lodgers.iter_mut().flatten() {
            lodger.told = lodger.answer != Answer::Steps;
        }
        shown
    }

    /// The turn of a number, if its run goes on.
    fn turn(&mut self, number: Number) {
        let place = number.get();
        let (slice, counted) = (self.plan.slice, self.telling.stats);
        let Some(lodger) = &mut self.lodgers[place] else {
            return;
        };
        if lodger.answer != Answer::Steps {
            return;
        }
        lodger.might_have = self.pool.may_have(number);
        let (taken, budget) = match counted {
            true => (
                by_steps(&mut self.pool, number, slice, &mut self.most[place]),
                0,
            ),
            false => (0, slice),
        };
        let ran = self.pool.budget(number, budget, &mut lodger.buffer);
        let Ran { answer, steps } = ran.expect("a run that was started");
        lodger.answer = answer;
        lodger.steps += taken + steps;
    }

    /// The row of a number whose run goes on, or has ended in this round.
    fn row(&self, number: Number) -> Option<Row<'_>> {
        let lodger = self.lodgers[number.get()].as_ref()?;
        (!lodger.told).then(|| Row {
            number,
            reserve: self.pool.reserve(number),
            has: self.pool.has(number),
            may_have: self.pool.may_have(number),
            might_have: lodger.might_have,
            answer: lodger.answer,
            steps: lodger.steps,
            buffer: &lodger.buffer,
        })
    }
}

/// Takes at most so many single steps and keeps the most vectors that the run had; how many
/// count.
fn by_steps(pool: &mut Pool, number: Number, steps: u32, most: &mut usize) -> u32 {
    for taken in 0..steps {
        let said = pool.step(number).expect("a run that was started");
        *most = (*most).max(pool.has(number));
        match said {
            Said::GoesOn => {}
            Said::Ended(End::Integer(_) | End::Vector(_) | End::Undef) => return taken + 1,
            Said::Ended(_) | Said::Stuck => return taken,
        }
    }
    steps
}
