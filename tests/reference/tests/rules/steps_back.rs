//! "Step back": what a step back gives, what counts as a step, and 20.

use crate::support::{Run, PORTAL, UNTOUCHED};
use cases::{adding, image, CALLS_ITSELF};
use reference::trail::NOTHING_BEHIND;
use reference::watched::Watched;
use reference::{Answer, End, Integer, Refusal, Said, State, Status, Trail, Value};

/// A run with its start kept, and the image that it goes on under.
struct Visit {
    trail: Trail,
    image: Vec<u8>,
}

impl Visit {
    /// Begins at 0.0 of the image of a text.
    fn begin(text: &str, words: &[Integer]) -> Visit {
        Visit {
            trail: Trail::start(watched(text, words)),
            image: image(text),
        }
    }

    /// Changes to another image, and keeps the old one where that is refused.
    fn change(&mut self, text: &str) -> Result<(), Refusal> {
        let new = image(text);
        self.trail.change(&self.image, &new)?;
        self.image = new;
        Ok(())
    }

    /// Takes so many steps that go on.
    #[track_caller]
    fn steps(&mut self, count: usize) {
        for _ in 0..count {
            assert_eq!(self.trail.step(), Said::GoesOn);
        }
    }

    /// Steps back by so many.
    #[track_caller]
    fn back(&mut self, count: usize) {
        for _ in 0..count {
            assert_eq!(self.trail.back(), Ok(()));
        }
    }

    /// A budget with a long enough buffer.
    fn budget(&mut self, budget: u32) -> (Answer, u32) {
        self.trail.budget(budget, &mut UNTOUCHED.clone())
    }

    /// The state.
    fn state(&self) -> &State {
        self.trail.run().state()
    }

    /// Asserts that 20 refuses a step back, and that the state stays.
    #[track_caller]
    fn refused(&mut self) {
        let before = self.state().clone();
        let (number, offset) = (20, 0);
        assert_eq!(self.trail.back(), Err(Refusal { number, offset }));
        assert_eq!(*self.state(), before);
    }
}

/// A begun run of 0.0 under the monitor.
fn watched(text: &str, words: &[Integer]) -> Watched {
    let begun = Run::begin(text, words);
    Watched::new(&begun.program, begun.state, PORTAL, "a run that goes back")
}

/// The state of a run of 0.0 after so many steps.
fn after(text: &str, words: &[Integer], steps: u32) -> State {
    let mut run = Run::begin(text, words);
    run.budget(steps);
    run.state
}

#[test]
fn each_step_back_is_the_state_of_one_step_less() {
    let mut visit = Visit::begin(&adding(1), &[-1, 5]);
    visit.steps(8);
    assert_eq!(visit.trail.step(), Said::Ended(End::Integer(5 + 1 + 1)));
    for steps in (0..9).rev() {
        visit.back(1);
        assert_eq!(visit.trail.behind(), Some(steps));
        assert_eq!(*visit.state(), after(&adding(1), &[-1, 5], steps as u32));
    }
    visit.refused();
}

#[test]
fn no_step_lies_behind_a_start() {
    let mut visit = Visit::begin(&adding(1), &[-1, 5]);
    visit.refused();
    assert_eq!(NOTHING_BEHIND.number, 20);
    visit.steps(1);
    visit.back(1);
    visit.refused();
}

#[test]
fn names_and_caches_come_back() {
    // STORE, PROM, FORCE, LIT, its end, POKE: behind these the name and the cache are others.
    let text = "version 0.0(r0: int) -> int
                  registers r1: reflective promise, r2: int
                  block 0 reflective -> r2
                    store x3 = r0
                    r1 = prom 1
                    r2 = force r1
                    poke r1.x3 = r2
                    r2 = force r1
                  block 1 quiet -> r2
                    r2 = lit 8";
    let mut visit = Visit::begin(text, &[-1, 5]);
    visit.steps(6);
    let held = |visit: &Visit| {
        let state = visit.state();
        let cache = state.promises[0].as_ref().map(|promise| promise.cache);
        (state.frames[0].names[3], cache)
    };
    assert_eq!(held(&visit), (Some(Value::Integer(8)), Some(Some(8))));
    visit.back(1);
    assert_eq!(held(&visit), (Some(Value::Integer(5)), Some(Some(8))));
    visit.back(1);
    assert_eq!(held(&visit), (Some(Value::Integer(5)), Some(None)));
    visit.back(3);
    assert_eq!(held(&visit), (Some(Value::Integer(5)), None));
    visit.back(1);
    assert_eq!(held(&visit), (None, None));
}

#[test]
fn a_run_goes_forward_again_from_where_it_went_back_to() {
    let mut visit = Visit::begin(&adding(1), &[-1, 5]);
    visit.steps(7);
    visit.back(4);
    visit.steps(5);
    assert_eq!(*visit.state(), after(&adding(1), &[-1, 5], 8));
    assert_eq!(visit.trail.behind(), Some(8));
    let done = Answer::Ended(End::Integer(7));
    assert_eq!(visit.budget(100), (done, 1));
    assert_eq!(visit.trail.behind(), Some(9));
}

#[test]
fn the_steps_of_a_budget_count_each() {
    let mut visit = Visit::begin(&adding(1), &[-1, 5]);
    assert_eq!(visit.budget(6), (Answer::Steps, 6));
    assert_eq!(visit.trail.behind(), Some(6));
    visit.back(1);
    assert_eq!(*visit.state(), after(&adding(1), &[-1, 5], 5));
    assert_eq!(visit.budget(0), (Answer::Steps, 0));
    assert_eq!(visit.trail.behind(), Some(5));
    let (answer, steps) = visit.trail.budget(3, &mut [0; 15]);
    let (number, offset) = (13, 0);
    let refused = Answer::Refused(Refusal { number, offset });
    assert_eq!((answer, steps), (refused, 0));
    assert_eq!(visit.trail.behind(), Some(5));
}

#[test]
fn steps_of_an_ended_run_do_not_count() {
    let mut visit = Visit::begin(&adding(1), &[-1, 5]);
    visit.budget(100);
    for _ in 0..3 {
        visit.trail.step();
        visit.budget(7);
    }
    assert_eq!(visit.trail.behind(), Some(9));
    visit.back(1);
    assert_eq!(visit.state().status, Status::Running);
}

#[test]
fn the_step_that_makes_undef_counts_and_is_taken_back() {
    let text = "version 0.0(r0: int) -> int
                  registers r1: int
                  block 0 quiet -> r0
                    r1 = lit 0
                    r0 = div r0, r1";
    let mut visit = Visit::begin(text, &[-1, 5]);
    visit.steps(1);
    assert_eq!(visit.trail.step(), Said::Ended(End::Undef));
    assert_eq!(visit.trail.behind(), Some(2));
    visit.back(1);
    assert_eq!(*visit.state(), after(text, &[-1, 5], 1));
}

#[test]
fn a_stopped_step_does_not_count_and_the_one_before_it_is_taken_back() {
    let mut visit = Visit::begin(CALLS_ITSELF, &[-1, 5]);
    let (answer, steps) = visit.budget(1000);
    assert_eq!(answer, Answer::Ended(End::Deep));
    assert_eq!(visit.trail.behind(), Some(steps.into()));
    visit.back(1);
    assert_eq!(visit.trail.behind(), Some(u64::from(steps) - 1));
    assert_eq!(*visit.state(), after(CALLS_ITSELF, &[-1, 5], steps - 1));
    visit.steps(1);
    assert_eq!(visit.trail.step(), Said::Ended(End::Deep));
}

#[test]
fn a_stop_with_no_step_behind_stays() {
    // 31 CALLs go on, and the next one is stopped.
    let mut run = watched(CALLS_ITSELF, &[-1, 5]);
    for _ in 0..31 {
        assert_eq!(run.step(), Said::GoesOn);
    }
    let mut trail = Trail::start(run);
    assert_eq!(trail.step(), Said::Ended(End::Deep));
    assert_eq!(trail.behind(), Some(0));
    assert_eq!(trail.back(), Err(NOTHING_BEHIND));
    assert_eq!(trail.run().state().status, Status::Ended(End::Deep));
}

#[test]
fn a_run_goes_back_no_further_than_a_change() {
    let mut visit = Visit::begin(&adding(1), &[-1, 5]);
    visit.steps(4);
    assert_eq!(visit.change(&adding(100)), Ok(()));
    visit.refused();
    visit.steps(3);
    visit.back(3);
    assert_eq!(*visit.state(), after(&adding(1), &[-1, 5], 4));
    visit.refused();
    let done = Answer::Ended(End::Integer(5 + 1 + 100));
    assert_eq!(visit.budget(100), (done, 5));
    visit.back(5);
    visit.refused();
}

#[test]
fn a_refused_change_leaves_the_steps_behind() {
    let mut visit = Visit::begin(&adding(1), &[-1, 5]);
    visit.steps(2);
    let (number, offset) = (15, 41);
    let refused = Err(Refusal { number, offset });
    assert_eq!(visit.change(&adding(100)), refused);
    assert_eq!(visit.trail.behind(), Some(2));
    visit.back(2);
    assert_eq!(*visit.state(), after(&adding(1), &[-1, 5], 0));
}

#[test]
fn a_change_at_an_end_is_a_start_too() {
    let mut visit = Visit::begin(&adding(1), &[-1, 5]);
    visit.budget(100);
    assert_eq!(visit.change(CALLS_ITSELF), Ok(()));
    visit.refused();
    assert_eq!(visit.state().status, Status::Ended(End::Integer(7)));
}

#[test]
fn past_the_reach_none_lies_behind_until_a_change() {
    let text = adding(1);
    let mut trail = Trail::with_reach(watched(&text, &[-1, 5]), 3);
    for steps in 1..=3 {
        trail.step();
        assert_eq!(trail.behind(), Some(steps));
    }
    assert_eq!((trail.back(), trail.behind()), (Ok(()), Some(2)));
    trail.step();
    trail.step();
    assert_eq!(trail.behind(), None);
    assert_eq!(trail.back(), Err(NOTHING_BEHIND));
    trail.step();
    assert_eq!(trail.back(), Err(NOTHING_BEHIND));
    let image = image(&text);
    assert_eq!(trail.change(&image, &image), Ok(()));
    assert_eq!(trail.behind(), Some(0));
    trail.step();
    assert_eq!(trail.back(), Ok(()));
}

#[test]
fn a_budget_goes_past_the_reach_too() {
    for (budget, behind) in [(3, Some(3)), (4, None)] {
        let mut trail = Trail::with_reach(watched(&adding(1), &[-1, 5]), 3);
        trail.budget(budget, &mut UNTOUCHED.clone());
        assert_eq!(trail.behind(), behind);
        assert_eq!(trail.back().is_ok(), behind.is_some());
    }
}
