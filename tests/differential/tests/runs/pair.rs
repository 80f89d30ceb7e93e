//! A run on both sides: each event is done on both, and what it gives compared.

use crate::changes::{self, History};
use crate::events::{event_list, events_after_the_end, size};
use crate::{positions, searches};
use differential::difference::difference;
use differential::engine;
use differential::lent::Lent;
use differential::paced::Paced;
use differential::snapshot::state_of;
use generator::{update, Event, Tally, Update};
use library::Run;
use reference::bounds::Steps;
use reference::watched::Watched;
use reference::{Answer, Said, Status};

/// The most events that a run gets after its end.
const MOST_AFTER_END: usize = 8;

/// A run on both sides.
pub struct Pair {
    /// The image in force.
    image: Vec<u8>,
    reference: Watched,
    proved: Paced<'static>,
    events: usize,
    changes: History,
}

impl Pair {
    /// A run of an image that has begun on both sides.
    pub fn new(image: &[u8], reference: Watched, proved: Paced<'static>) -> Pair {
        Pair {
            image: image.to_vec(),
            reference,
            proved,
            events: 0,
            changes: History::default(),
        }
    }

    /// The run of the reference.
    pub fn reference(&self) -> &Watched {
        &self.reference
    }

    /// The run of the proved engine.
    pub fn proved(&self) -> &Paced<'static> {
        &self.proved
    }

    /// The changes that were tried.
    pub fn changes(&self) -> &History {
        &self.changes
    }

    /// The name of the end of the run; none while it goes on.
    fn end(&self) -> Option<String> {
        match self.reference.state().status {
            Status::Running => None,
            Status::Ended(end) => Some(name(&format!("{end:?}"))),
        }
    }

    /// Asserts that both are in the same state.
    #[track_caller]
    pub fn assert_same_state(&self, origin: &str) {
        let expected = self.reference.state().clone().tidied();
        let different = match state_of(self.proved.state()) {
            Ok(found) => difference(&expected, &found),
            Err(error) => Some(error),
        };
        if let Some(different) = different {
            panic!(
                "{origin}, event {}: the proved engine's state, {different}\n{}",
                self.events,
                text::listing(&self.image)
            );
        }
    }

    /// Asserts that both say the same of where they stand, and of the search there.
    #[track_caller]
    pub fn compare_standing(&self, origin: &str, met: &mut Tally<String>) {
        let end = self.end();
        let both = (&self.reference, &*self.proved);
        compare_standing(both, end.as_deref(), origin, met);
    }

    /// Asserts that both gave the same.
    #[track_caller]
    fn assert_same<T: PartialEq + std::fmt::Debug>(&self, expected: T, found: T, origin: &str) {
        assert!(
            expected == found,
            "{origin}, event {}: expected {expected:?}, the proved engine gives {found:?}\n{}",
            self.events,
            text::listing(&self.image)
        );
    }

    /// Does the events of a seed, and goes past the end.
    #[track_caller]
    pub fn act_all(&mut self, seed: u64, origin: &str, met: &mut Tally<String>) {
        let mut after_end = 0;
        for event in event_list(seed) {
            if after_end < MOST_AFTER_END {
                self.act(event, origin, met);
            }
            after_end += usize::from(self.reference.ended());
        }
        for event in events_after_the_end(seed) {
            self.act(event, origin, met);
        }
    }

    /// Does one event on both sides, and compares.
    #[track_caller]
    fn act(&mut self, event: Event, origin: &str, met: &mut Tally<String>) {
        let ended = self.reference.ended();
        self.events += 1;
        met.meet("events in all".to_string());
        match event {
            Event::Step => {
                let said = self.step(origin);
                met.meet(format!("step {}: {}", when(ended), name_said(said)));
            }
            Event::Budget { budget, places } => {
                let answer = self.budget(budget, places, origin, met);
                let size = size(budget);
                let when = when(ended);
                met.meet(format!("{size} budget {when}: {}", name_answer(answer)));
                met.meet(format!("buffer of {places} places"));
            }
            Event::Change { aim, seed } => {
                let end = self.end();
                let outcome = self.change(aim, seed, origin, met);
                met.meet(changes::name(end.as_deref(), &outcome));
            }
        }
        self.assert_same_state(origin);
        self.compare_standing(origin, met);
    }

    /// A single step on both sides; what it says.
    #[track_caller]
    fn step(&mut self, origin: &str) -> Said {
        let found = engine::step(&mut self.proved);
        let expected = self.reference.step();
        self.assert_same(expected, found, origin);
        expected
    }

    /// A budget on both sides; its answer. A copy of the proved run takes the same
    /// steps one by one, and where they stand is compared between them.
    #[track_caller]
    fn budget(
        &mut self,
        budget: Steps,
        places: usize,
        origin: &str,
        met: &mut Tally<String>,
    ) -> Answer {
        let (mut expected, mut found) = (
            Lent::new(places, self.events),
            Lent::new(places, self.events),
        );
        let mut before = self.proved.clone();
        let given = engine::budget(&mut self.proved, budget, found.places());
        if matches!(given.0, Answer::Refused(_)) {
            let kept = before.state() == self.proved.state();
            assert!(kept, "{origin}: a refusal leaves the state");
        }
        let right = self
            .reference
            .budget_seen(budget, expected.places(), |reference| {
                let said = engine::step(&mut before);
                assert_eq!(said, Said::GoesOn, "{origin}: a step under a budget");
                compare_standing((reference, &*before), None, origin, met);
            });
        self.assert_same(right, given, origin);
        self.assert_same(expected, found, origin);
        right.0
    }

    /// A change on both sides, taken or refused; what it comes to.
    #[track_caller]
    fn change(&mut self, aim: Update, seed: u64, origin: &str, met: &mut Tally<String>) -> String {
        let live = self.reference.state().live_versions();
        let new = update(aim, seed, &self.image, &live);
        let before = self.proved.state().clone();
        let found = engine::change(&mut self.proved, &new);
        let expected = self.reference.change(&self.image, &new);
        self.assert_same(expected, found, origin);
        let kept = before == *self.proved.state();
        assert!(kept, "{origin}: a change leaves the state's bytes");
        changes::meet_level(expected, &self.image, &new, met);
        let outcome = changes::outcome(expected, &self.image, &new, !live.is_empty());
        self.changes.add(expected.is_ok(), self.reference.ended());
        if expected.is_ok() {
            self.image = new;
        }
        let in_force = self.proved.image() == self.image;
        assert!(in_force, "{origin}: the image in force");
        outcome
    }
}

/// Asserts that both say the same of where they stand, and of the search there.
#[track_caller]
fn compare_standing(
    both: (&Watched, &Run),
    end: Option<&str>,
    origin: &str,
    met: &mut Tally<String>,
) {
    positions::compare(both, end, origin, met);
    searches::compare(both, end, origin, met);
}

/// Whether an event found the run at its end.
fn when(ended: bool) -> &'static str {
    if ended {
        "after the end"
    } else {
        "before"
    }
}

/// What a step says, without its numbers.
fn name_said(said: Said) -> String {
    match said {
        Said::Ended(end) => name(&format!("{end:?}")),
        said => name(&format!("{said:?}")),
    }
}

/// What a budget answers, without its numbers.
fn name_answer(answer: Answer) -> String {
    match answer {
        Answer::Refused(refusal) => format!("refused by {}", refusal.number),
        Answer::Ended(end) => name(&format!("{end:?}")),
        answer => name(&format!("{answer:?}")),
    }
}

/// The letters of an answer.
fn name(answer: &str) -> String {
    answer.chars().filter(|c| c.is_alphabetic()).collect()
}
