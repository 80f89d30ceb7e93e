//! What a run does after a change of its image, and which ends leave a live call.

use crate::support::{Run, PORTAL};
use cases::{adding, image, CALLS_ITSELF, IDENTITY};
use reference::bounds::BUFFER;
use reference::watched::Watched;
use reference::{change, Answer, End, Integer, Program, Refusal, Said, Status};

/// A run under the monitor, and the image that it goes on under.
struct Changing {
    run: Watched,
    image: Vec<u8>,
}

impl Changing {
    /// Begins at 0.0 of the image of a text.
    fn begin(text: &str, words: &[Integer]) -> Changing {
        let begun = Run::begin(text, words);
        Changing {
            run: Watched::new(&begun.program, begun.state, PORTAL, "a run that changes"),
            image: image(text),
        }
    }

    /// Changes to another image, and keeps the old one where that is refused.
    fn change(&mut self, text: &str) -> Result<(), Refusal> {
        let new = image(text);
        self.run.change(&self.image, &new)?;
        self.image = new;
        Ok(())
    }

    /// Takes so many steps that go on.
    #[track_caller]
    fn steps(&mut self, count: usize) {
        for _ in 0..count {
            assert_eq!(self.run.step(), Said::GoesOn);
        }
    }
}

#[test]
fn the_next_steps_are_those_of_the_new_image() {
    // 0.0 is live alone after 4 steps: CALL, LIT, ADD, end.
    let mut run = Changing::begin(&adding(1), &[-1, 5]);
    run.steps(4);
    assert_eq!(run.change(&adding(100)), Ok(()));
    run.steps(4);
    assert_eq!(run.run.step(), Said::Ended(End::Integer(5 + 1 + 100)));
}

#[test]
fn a_budget_goes_on_under_the_new_image() {
    let mut run = Changing::begin(&adding(1), &[-1, 5]);
    let buffer = &mut [0; BUFFER];
    assert_eq!(run.run.budget(4, buffer), (Answer::Steps, 4));
    assert_eq!(run.change(&adding(-8)), Ok(()));
    let done = Answer::Ended(End::Integer(5 + 1 - 8));
    assert_eq!(run.run.budget(100, buffer), (done, 5));
}

#[test]
fn a_refused_change_leaves_the_run_under_the_old_image() {
    let mut run = Changing::begin(&adding(1), &[-1, 5]);
    run.steps(1);
    // 0.0 takes 41 bytes, and 1.0 is live.
    let (number, offset) = (15, 41);
    assert_eq!(run.change(&adding(100)), Err(Refusal { number, offset }));
    run.steps(3);
    assert_eq!(run.change(&adding(100)), Ok(()));
    assert_eq!(run.change(&adding(1000)), Ok(()));
    run.steps(4);
    assert_eq!(run.run.step(), Said::Ended(End::Integer(5 + 1 + 1000)));
}

#[test]
fn a_change_takes_no_step_and_leaves_the_state() {
    let mut run = Changing::begin(&adding(1), &[-1, 5]);
    for taken in 0..9 {
        let before = run.run.state().clone();
        assert_eq!(run.change(&adding(1)), Ok(()));
        assert!(run.change("version 0.0() -> int").is_err());
        assert_eq!(run.run.state(), &before);
        assert_eq!(run.run.tried(), taken);
        let said = run.run.step();
        assert_eq!(said == Said::GoesOn, taken < 8);
    }
    assert_eq!(run.run.ending(), Some("DONE, integer"));
}

/// Steps a run to its end; the run.
#[track_caller]
fn ended(text: &str, words: &[Integer], end: End) -> Run {
    let mut run = Run::begin(text, words);
    while run.step() == Said::GoesOn {}
    assert_eq!(run.state.status, Status::Ended(end));
    run
}

/// Asserts that an ended run of 0.0 may go on under its own image alone.
#[track_caller]
fn keeps_its_versions(text: &str, words: &[Integer], end: End) {
    let mut run = ended(text, words, end);
    let old = image(text);
    assert_eq!(change(&old, &old, &run.state), Ok(()));
    let (number, offset) = (15, 0);
    let refused = Err(Refusal { number, offset });
    assert_eq!(change(&old, &IDENTITY, &run.state), refused);
    assert_eq!(run.step(), Said::Ended(end));
}

#[test]
fn done_leaves_no_live_call_and_any_accepted_image_goes() {
    for (text, words, end) in [
        (adding(1), &[-1, 5][..], End::Integer(7)),
        (cases::DUP_AND_SET.to_string(), &[1, 9], End::Vector(1)),
    ] {
        let mut run = ended(&text, words, end);
        assert_eq!(change(&image(&text), &IDENTITY, &run.state), Ok(()));
        let refused = change(&image(&text), &IDENTITY[..22], &run.state);
        let (number, offset) = (2, 16);
        assert_eq!(refused, Err(Refusal { number, offset }));
        // The end is given again under the new image.
        run.program = Program::accept(&IDENTITY).expect("an accepted image");
        assert_eq!(run.step(), Said::Ended(end));
        assert_eq!(run.budget(3), (Answer::Ended(end), 0));
    }
}

#[test]
fn undef_keeps_its_live_calls() {
    keeps_its_versions(cases::DIVISION, &[-1, 1, -1, 0], End::Undef);
}

#[test]
fn deep_keeps_its_live_calls() {
    keeps_its_versions(CALLS_ITSELF, &[-1, 1], End::Deep);
}

#[test]
fn vectors_keeps_its_live_calls() {
    let text = "version 0.0(r0: vector) -> int
                  registers r1: vector, r2: vector, r3: int
                  block 0 quiet -> r3
                    r1 = vec []
                    r2 = vec []
                    r3 = call 0.0(r0)";
    keeps_its_versions(text, &[0], End::Vectors);
}

#[test]
fn promises_keeps_its_live_calls() {
    let text = "version 0.0(r0: int) -> int
                  registers r1: quiet promise, r2: quiet promise, r3: quiet promise
                  block 0 quiet -> r0
                    r1 = prom 1
                    r2 = prom 2
                    r3 = prom 3
                    r0 = call 0.0(r0)
                  block 1 quiet -> r0
                  block 2 quiet -> r0
                  block 3 quiet -> r0";
    keeps_its_versions(text, &[-1, 1], End::Promises);
}

/// 0.0 gives its vector to 1.0, whose parameter has this type, and then makes
/// another one in the same register.
fn giving(parameter: &str) -> String {
    format!(
        "version 0.0(r0: own vector) -> int
           registers r1: int
           block 0 quiet -> r1
             r1 = call 1.0(r0)
             r0 = vec [r1]
             r1 = call 1.0(r0)
         version 1.0(r0: {parameter}) -> int
           registers r1: int
           block 0 quiet -> r1
             r1 = len r0"
    )
}

#[test]
fn what_a_call_empties_may_change_with_the_callee() {
    // 0.0 is live alone after 3 steps and after 4.
    for (first, second) in [
        ("own vector", "borrow vector"),
        ("borrow vector", "own vector"),
    ] {
        for at in [0, 3, 4] {
            let mut run = Changing::begin(&giving(first), &[2, 8, 9]);
            run.steps(at);
            assert_eq!(run.change(&giving(second)), Ok(()), "{first}, {at}");
            run.steps(7 - at);
            assert_eq!(run.run.step(), Said::Ended(End::Integer(1)));
        }
    }
}
