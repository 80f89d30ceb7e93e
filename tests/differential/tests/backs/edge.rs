//! Trails at the edge of 4,294,967,295 steps: their count is set by hand, since no run of a
//! test takes so many.

use crate::Begun;
use differential::difference::difference;
use differential::engine;
use differential::paced::steps_of;
use differential::snapshot::state_of;
use generator::{Random, Tally};
use library::{Trail, FIR_ITEMS, FIR_STEPS};
use reference::bounds::{Steps, BUFFER};
use reference::trail::{NOTHING_BEHIND, REACH};
use reference::{Answer, State};

/// How many programs are generated.
pub const PROGRAMS: u64 = 4_000;

/// The fewest of each thing that is met.
pub const FEWEST: [(&str, usize); 7] = [
    ("exactly the most steps", 1_000),
    ("crossed by a step", 500),
    ("crossed by a budget", 500),
    ("refused past the most", 5_000),
    ("counts anew behind a change", 1_000),
    ("back before the edge", 1_000),
    ("ended before the edge", 100),
];

/// The most steps of a run that is sure to end.
const TO_THE_END: Steps = 3_000;

/// The turns forward of each run.
const TURNS: usize = 12;

/// A run whose count was set by hand, and the count that it should have.
struct Edge {
    trail: Trail<'static>,
    taken: u64,
    origin: String,
}

impl Edge {
    /// The steps that should lie behind.
    fn behind(&self) -> Option<u32> {
        u32::try_from(self.taken).ok()
    }

    /// Asserts that the trail has the right count.
    #[track_caller]
    fn assert_count(&self) {
        assert_eq!(self.trail.behind(), self.behind(), "{}", self.origin);
    }

    /// Asserts that no step lies behind, and that no byte changes.
    #[track_caller]
    fn assert_refused(&mut self) {
        let before = self.trail.clone();
        let back = engine::back(&mut self.trail);
        assert_eq!(back, Err(NOTHING_BEHIND), "{}", self.origin);
        assert!(before.state() == self.trail.state(), "{}", self.origin);
        assert!(before.kept() == self.trail.kept(), "{}", self.origin);
    }

    /// A step or a budget, and what it counts.
    #[track_caller]
    fn forward(&mut self, random: &mut Random, met: &mut Tally<String>) {
        let (before, goes_on) = (self.trail.kept().clone(), self.goes_on());
        let by = if random.one_in(2) {
            "a step"
        } else {
            "a budget"
        };
        let taken = match by {
            "a step" => steps_of(goes_on, engine::step_on(&mut self.trail)),
            _ => {
                let (budget, buffer) = (random.below(5) as Steps, &mut [0; FIR_ITEMS]);
                engine::budget_on(&mut self.trail, budget, buffer).1.into()
            }
        };
        self.taken += taken;
        self.assert_count();
        let kept = self.trail.kept();
        match (before.behind(), self.behind()) {
            (Some(_), None) => {
                met.meet(format!("crossed by {by}"));
                assert_eq!(
                    (kept.steps, kept.past),
                    (before.steps, 1),
                    "{}",
                    self.origin
                );
            }
            (None, None) => assert!(*kept == before, "{}: past it stays", self.origin),
            (Some(_), Some(u32::MAX)) if taken > 0 => {
                met.meet("exactly the most steps".to_string());
            }
            _ => {}
        }
    }

    /// Does the run go on?
    fn goes_on(&self) -> bool {
        self.trail.state().status == FIR_STEPS
    }

    /// A change to the same image, from which on the steps count anew.
    #[track_caller]
    fn change(&mut self, met: &mut Tally<String>) {
        let image = self.trail.image().to_vec();
        let changed = engine::change_on(&mut self.trail, &image);
        assert_eq!(changed, Ok(()), "{}: the same image", self.origin);
        self.taken = 0;
        self.assert_count();
        self.assert_refused();
        let stepped = steps_of(self.goes_on(), engine::step_on(&mut self.trail));
        self.taken += stepped;
        self.assert_count();
        if stepped == 1 {
            assert_eq!(engine::back(&mut self.trail), Ok(()), "{}", self.origin);
            met.meet("counts anew behind a change".to_string());
        }
    }
}

/// Asserts that a step back before the edge gives the end of a run that takes fewer steps.
#[track_caller]
fn back_before(edge: &Edge, start: State, begun: &Begun, met: &mut Tally<String>) {
    let (end, answer, _) = start.budget(&begun.program, TO_THE_END, &mut [0; BUFFER]);
    if answer == Answer::Steps {
        return;
    }
    let mut trail = edge.trail.clone();
    assert_eq!(engine::back(&mut trail), Ok(()), "{}", edge.origin);
    let less = edge.behind().map(|steps| steps - 1);
    assert_eq!(trail.behind(), less, "{}", edge.origin);
    let found = state_of(trail.state()).unwrap_or_else(|error| panic!("{}: {error}", edge.origin));
    let different = difference(&end.tidied(), &found);
    assert_eq!(different, None, "{}", edge.origin);
    met.meet("back before the edge".to_string());
}

/// Brings a run over the edge, by steps and budgets.
pub fn cross(seed: u64, begun: Begun, met: &mut Tally<String>) {
    let mut random = Random::new(seed ^ 0x00ED_6E00);
    let mut trail = Trail::start(begun.run.clone());
    trail.budget(random.below(20) as Steps, &mut [0; FIR_ITEMS]);
    let mut kept = trail.kept().clone();
    kept.steps = Steps::MAX - random.below(6) as Steps;
    let mut edge = Edge {
        taken: kept.steps.into(),
        trail: Trail::resume_with_its_own_run(trail.run().clone(), kept),
        origin: format!("seed {seed}"),
    };
    assert_eq!(u64::from(Steps::MAX), REACH);
    edge.assert_count();
    back_before(&edge, begun.state.clone(), &begun, met);
    for _ in 0..TURNS {
        edge.forward(&mut random, met);
        if edge.behind().is_none() {
            edge.assert_refused();
            met.meet("refused past the most".to_string());
        }
    }
    if edge.behind().is_some() {
        met.meet("ended before the edge".to_string());
    }
    edge.change(met);
}
