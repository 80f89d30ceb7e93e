//! What is asked of both sides: starts, steps, budgets, changes and steps back.

use super::{House, Starting, EACH_OVER_RESERVED, OVER_RESERVED};
use crate::alone::{Spent, Started};
use differential::engine::refusal;
use differential::lent::Lent;
use differential::pooled;
use generator::{update, Ask, Event, Tally, Update};
use library::{Run, Store, FIR_ITEMS};
use reference::bounds::Steps;
use reference::pool::NOT_IN_POOL;
use reference::{Answer, End, Integer, Refusal, Said};

/// An answer with its steps.
type Answered = (Answer, Steps);

impl House {
    /// A start, with or without a budget; what refuses it.
    #[track_caller]
    pub(super) fn start(
        &mut self,
        number: usize,
        run: &mut Run<'static>,
        starting: Starting,
        met: &mut Tally<String>,
    ) -> Result<(), Refusal> {
        let Starting {
            start,
            places,
            budget,
            over,
        } = starting;
        let (right, found) = self.start_both(number, run, &starting);
        let entry = match right.0 {
            Answer::Refused(no) => Err(no),
            _ => Ok(()),
        };
        let overfull = entry.is_ok() && run.state().calls == 0 && started_full(right);
        meet_start(entry, over, overfull, met);
        if entry != Err(NOT_IN_POOL) {
            let heard = Started {
                entry,
                overfull,
                ran: budget.map(|budget| (budget, right.0, right.1)),
                places,
                event: self.asks,
                buffer: found,
            };
            let place = self.place(number);
            self.alone[number].start(start, &heard, run, &place);
        }
        entry
    }

    /// The start itself, on both sides; the answer, and the buffer afterwards.
    #[track_caller]
    fn start_both(
        &mut self,
        number: usize,
        run: &mut Run<'static>,
        starting: &Starting,
    ) -> (Answered, Lent) {
        let start = starting.start;
        let mut expected = Lent::new(starting.places, self.asks);
        let mut found = expected.clone();
        let (reference, store) = (&mut self.reference, &mut self.store);
        let (right, given) = match starting.budget {
            None => (
                as_answer(reference.start(number, start, expected.places())),
                as_answer(pooled::begin(store, number, run, start, found.places())),
            ),
            Some(budget) => (
                reference.run(number, start, budget, expected.places()),
                pooled::run(store, number, run, start, budget, found.places()),
            ),
        };
        self.assert_same(number, right, given);
        self.assert_same(number, &expected, &found);
        (right, found)
    }

    /// A single step; what refuses it. None where the number has no run.
    #[track_caller]
    pub(super) fn step(
        &mut self,
        number: usize,
        run: &mut Run<'static>,
    ) -> Option<Result<(), Refusal>> {
        let place = self.place(number);
        let expected = self.reference.step(number).transpose()?;
        let found = pooled::step(&mut self.store, number, run);
        self.assert_same(number, expected, found);
        let heard = expected.map(|said| {
            assert!(said != Said::Stuck, "{place}: stuck");
            self.alone[number].step(said, run, &place);
        });
        Some(heard)
    }

    /// A budget; what refuses it. None where the number has no run.
    #[track_caller]
    pub(super) fn budget(
        &mut self,
        number: usize,
        run: &mut Run<'static>,
        budget: Steps,
        places: usize,
    ) -> Option<Result<(), Refusal>> {
        let place = self.place(number);
        let untouched = Lent::new(places, self.asks);
        let (mut expected, mut found) = (untouched.clone(), untouched.clone());
        let right = self.reference.budget(number, budget, expected.places())?;
        let given = pooled::budget(&mut self.store, number, run, budget, found.places());
        self.assert_same(number, right, given);
        self.assert_same(number, &expected, &found);
        let (answer, steps) = right;
        if answer != Answer::Refused(NOT_IN_POOL) {
            let heard = Spent {
                budget,
                answer,
                steps,
            };
            self.alone[number].spend(heard, (untouched, &found), run, &place);
        }
        Some(match answer {
            Answer::Refused(no) => Err(no),
            _ => Ok(()),
        })
    }

    /// A change; what refuses it. None where the number has no run.
    #[track_caller]
    pub(super) fn change(
        &mut self,
        number: usize,
        run: &mut Run<'static>,
        aim: Update,
        seed: u64,
    ) -> Option<Result<(), Refusal>> {
        let place = self.place(number);
        let new = match self.reference.get(number) {
            Some(lodger) => {
                let live = lodger.run.state().live_versions();
                update(aim, seed, &lodger.image, &live)
            }
            None => Vec::new(),
        };
        let expected = self.reference.change(number, &new)?;
        let (state, store) = (run.state().clone(), self.store);
        let found = pooled::change(&self.store, number, run, &new);
        self.assert_same(number, expected, found);
        let left = state == *run.state() && store == self.store;
        assert!(left, "{place}: a change leaves pool and state");
        if expected != Err(NOT_IN_POOL) {
            self.alone[number].change(&new, expected, run, &place);
        }
        Some(expected)
    }

    /// A step back, which none takes; what refuses it.
    #[track_caller]
    pub(super) fn back(&self, number: usize) -> Refusal {
        let no = self.reference.back(number);
        self.assert_same(number, no, refusal(self.store.back(number)));
        no
    }

    /// Asks the same with a pool whose reserves sum above 64: 21 at 0, and nothing is
    /// written.
    #[track_caller]
    pub(super) fn ask_over_reserved(&mut self, number: usize, ask: &Ask, met: &mut Tally<String>) {
        let Store { has, .. } = self.store;
        let reserves = OVER_RESERVED[self.asks / EACH_OVER_RESERVED % OVER_RESERVED.len()];
        let mut store = Store { reserves, has };
        let (lent, mut run) = (store, self.lend(number));
        let before = self.before(number, &run);
        let mut buffer = Lent::new(FIR_ITEMS, self.asks);
        let found = heard_in(&mut store, number, &mut run, ask, buffer.places());
        self.assert_same(number, Err(NOT_IN_POOL), found);
        self.assert_same(number, lent, store);
        self.assert_same(number, Lent::new(FIR_ITEMS, self.asks), buffer);
        self.assert_left(number, &before, NOT_IN_POOL, &run);
        if before.had {
            self.runs[number] = Some(run);
        }
        met.meet("21 by the reserves of a lent pool".to_string());
    }
}

/// Asks something of the proved engine alone; what refuses it.
fn heard_in(
    store: &mut Store,
    number: usize,
    run: &mut Run<'static>,
    ask: &Ask,
    buffer: &mut [Integer],
) -> Result<(), Refusal> {
    let (answer, _) = match ask {
        Ask::Start {
            start,
            budget: Some(budget),
            ..
        } => pooled::run(store, number, run, start, *budget, buffer),
        Ask::Event(Event::Budget { budget, .. }) => {
            pooled::budget(store, number, run, *budget, buffer)
        }
        Ask::Start { start, .. } => {
            return pooled::begin(store, number, run, start, buffer);
        }
        Ask::Event(Event::Step) => return pooled::step(store, number, run).map(|_| ()),
        Ask::Event(Event::Change { .. }) => {
            let image = run.image().to_vec();
            return pooled::change(store, number, run, &image);
        }
        Ask::Back => return Err(refusal(store.back(number))),
    };
    match answer {
        Answer::Refused(no) => Err(no),
        _ => Ok(()),
    }
}

/// What became of a start without a budget, as an answer.
fn as_answer(begun: Result<(), Refusal>) -> Answered {
    match begun {
        Ok(()) => (Answer::Steps, 0),
        Err(no) => (Answer::Refused(no), 0),
    }
}

/// Has a start, or its budget, ended with VECTORS and no step, if it has ended?
fn started_full((answer, steps): Answered) -> bool {
    steps == 0 && matches!(answer, Answer::Steps | Answer::Ended(End::Vectors))
}

/// Meets a start, over a live run or not, that stops at once or does not.
fn meet_start(entry: Result<(), Refusal>, over: bool, full: bool, met: &mut Tally<String>) {
    let mut thing = match entry {
        Ok(()) => "a start".to_string(),
        Err(_) => "a refused start".to_string(),
    };
    met.meet(thing.clone());
    if full {
        thing.push_str(" that stops at once");
        met.meet(thing.clone());
    }
    if over {
        met.meet(format!("{thing} over a live run"));
    }
}
