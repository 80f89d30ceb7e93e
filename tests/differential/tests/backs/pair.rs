//! A run with its start kept, on both sides: each turn is done on both, and what it gives
//! compared.

use differential::difference::difference;
use differential::engine;
use differential::lent::Lent;
use differential::snapshot::state_of;
use generator::{update, Event, Tally, Turn, Update};
use library::{Run, Trail, FIR_ITEMS};
use reference::bounds::Steps;
use reference::watched::Watched;
use reference::{Answer, Refusal, Said, State, Status};
use std::fmt::Debug;

/// What the last turn was.
#[derive(Clone, Copy, PartialEq, Eq)]
enum Last {
    Start,
    Forward,
    Taken,
    Refused,
    Back,
}

/// A run on both sides.
pub struct Pair {
    /// The image in force.
    image: Vec<u8>,
    reference: reference::Trail,
    proved: Trail<'static>,
    /// The turns so far, and what the last was.
    turns: usize,
    last: Last,
    /// Was a change taken?
    changed: bool,
    /// The state that the last turn went back from, if a step leads there.
    ahead: Option<State>,
    origin: String,
}

impl Pair {
    /// A run of an image that has begun on both sides.
    pub fn new(image: Vec<u8>, reference: Watched, proved: Run<'static>, origin: String) -> Pair {
        let pair = Pair {
            image,
            reference: reference::Trail::start(reference),
            proved: Trail::start(proved),
            turns: 0,
            last: Last::Start,
            changed: false,
            ahead: None,
            origin,
        };
        pair.assert_same_trail();
        pair
    }

    /// The steps that were tried.
    pub fn tried(&self) -> usize {
        self.reference.run().tried()
    }

    /// Asserts that both gave the same.
    #[track_caller]
    fn assert_same<T: PartialEq + Debug>(&self, expected: T, found: T) {
        assert!(
            expected == found,
            "{}, turn {}: expected {expected:?}, the proved engine gives {found:?}\n{}",
            self.origin,
            self.turns,
            text::listing(&self.image)
        );
    }

    /// Asserts a thing of this turn.
    #[track_caller]
    fn assert(&self, holds: bool, thing: &str) {
        assert!(holds, "{}, turn {}: {thing}", self.origin, self.turns);
    }

    /// Asserts that both are in the same state, stand at the same place, and have as many
    /// steps behind them.
    #[track_caller]
    fn assert_same_trail(&self) {
        let expected = self.reference.run().state().clone().tidied();
        let different = match state_of(self.proved.state()) {
            Ok(found) => difference(&expected, &found),
            Err(error) => Some(error),
        };
        self.assert_same(None, different);
        self.assert_same(self.reference.behind(), self.proved.behind().map(u64::from));
        let position = engine::position(&self.proved);
        self.assert_same(self.reference.run().position(), position);
    }

    /// Does one turn on both sides, and compares.
    #[track_caller]
    pub fn act(&mut self, turn: Turn, met: &mut Tally<String>) {
        self.turns += 1;
        let start = self.proved.kept().start();
        self.last = match turn {
            Turn::Back => self.back(met),
            Turn::Event(Event::Step) => self.step(met),
            Turn::Event(Event::Budget { budget, places }) => self.budget(budget, places),
            Turn::Event(Event::Change { aim, seed }) => self.change(aim, seed, met),
        };
        if self.last != Last::Taken {
            self.assert(start == self.proved.kept().start(), "the start stays");
        }
        self.assert_same_trail();
    }

    /// A single step. It does what one without a trail does, and leads to the state that
    /// the run went back from, if it did.
    #[track_caller]
    fn step(&mut self, met: &mut Tally<String>) -> Last {
        let mut plain = self.proved.run().clone();
        let found = engine::step_on(&mut self.proved);
        let expected = self.reference.step();
        self.assert_same(expected, found);
        plain.step();
        self.assert(plain.state() == self.proved.state(), "the bytes of a step");
        if let Some(ahead) = self.ahead.take() {
            self.assert(*self.reference.run().state() == ahead, "forward again");
            self.assert(expected != Said::Stuck, "forward again");
            met.meet("forward again".to_string());
        }
        Last::Forward
    }

    /// A budget. It does what one without a trail does.
    #[track_caller]
    fn budget(&mut self, budget: Steps, places: usize) -> Last {
        let lent = || Lent::new(places, self.turns);
        let (mut expected, mut found, mut without) = (lent(), lent(), lent());
        let mut plain = self.proved.run().clone();
        let given = engine::budget_on(&mut self.proved, budget, found.places());
        let right = self.reference.budget(budget, expected.places());
        self.assert_same(right, given);
        plain.budget(budget, without.places());
        self.assert(
            plain.state() == self.proved.state(),
            "the bytes of a budget",
        );
        self.assert_same(&expected, &found);
        self.assert_same(&expected, &without);
        let stays = matches!(right, (Answer::Refused(_), _) | (_, 0));
        self.ahead.take_if(|_| !stays);
        Last::Forward
    }

    /// A change, taken or refused.
    #[track_caller]
    fn change(&mut self, aim: Update, seed: u64, met: &mut Tally<String>) -> Last {
        let live = self.reference.run().state().live_versions();
        let new = update(aim, seed, &self.image, &live);
        let before = self.proved.clone();
        let found = engine::change_on(&mut self.proved, &new);
        let expected = self.reference.change(&self.image, &new);
        self.assert_same(expected, found);
        let state = before.state() == self.proved.state();
        self.assert(state, "a change leaves the state's bytes");
        if expected.is_err() {
            let kept = before.kept() == self.proved.kept();
            self.assert(kept, "a refused change leaves the trail's bytes");
            self.assert(self.proved.image() == self.image, "the image in force");
            return Last::Refused;
        }
        met.meet("changes taken".to_string());
        let start = self.proved.kept().start();
        self.assert(start == *self.proved.state(), "the state is the start");
        (self.image, self.ahead, self.changed) = (new, None, true);
        self.assert(self.proved.image() == self.image, "the image in force");
        Last::Taken
    }

    /// A step back. Where it is refused, no byte changes; where it is taken, the state has
    /// the bytes of a budget from the start.
    #[track_caller]
    fn back(&mut self, met: &mut Tally<String>) -> Last {
        let before = self.proved.clone();
        let state = self.reference.run().state().clone();
        let found = engine::back(&mut self.proved);
        let expected = self.reference.back();
        self.assert_same(expected, found);
        self.meet_back(expected, state.status, met);
        if expected.is_err() {
            self.assert(before.state() == self.proved.state(), "20 leaves the state");
            self.assert(before.kept() == self.proved.kept(), "20 leaves the trail");
            return Last::Back;
        }
        let mut plain = before.at_start().run().clone();
        let less = before.behind().map(|steps| steps - 1).expect("a count");
        plain.budget(less, &mut [0; FIR_ITEMS]);
        self.assert(
            plain.state() == self.proved.state(),
            "the bytes of a step back",
        );
        let stopped = matches!(state.status, Status::Ended(end) if !end.counts());
        self.ahead = (!stopped).then_some(state);
        Last::Back
    }

    /// Meets a step back that found the run so.
    fn meet_back(&self, back: Result<(), Refusal>, status: Status, met: &mut Tally<String>) {
        let became = if back.is_ok() { "taken" } else { "refused" };
        let status = match status {
            Status::Running => "Running".to_string(),
            Status::Ended(end) => format!("{end:?}"),
        };
        let status: String = status.chars().take_while(|c| c.is_alphabetic()).collect();
        met.meet(became.to_string());
        met.meet(format!("{became}, {status}"));
        if self.changed {
            met.meet(format!("{became}, in a run with a change"));
        }
        let behind = match self.last {
            Last::Start => "at the start",
            Last::Forward => "behind a step or a budget",
            Last::Taken => "behind a change that was taken",
            Last::Refused => "behind a change that was refused",
            Last::Back => "behind another",
        };
        met.meet(format!("{became}, {behind}"));
    }
}
