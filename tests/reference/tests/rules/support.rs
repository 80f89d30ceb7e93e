//! How the tests begin runs and compare answers.

use cases::image;
use reference::bounds::{Steps, BUFFER};
use reference::monitor::{check_state, check_step};
use reference::{verdict, Answer, End, Integer, Program, Refusal, Said, State, Value, Verdict};

/// The level of the tenants' portal.
pub const PORTAL: usize = 0;

/// A buffer whose places show what was not written.
pub const UNTOUCHED: [Integer; BUFFER] = [-99; BUFFER];

/// Asserts that the image of a text is accepted.
#[track_caller]
pub fn accepts(text: &str) {
    let verdict = verdict(&image(text));
    assert!(matches!(verdict, Verdict::Accepted(_)), "{verdict:?}");
}

/// Asserts that the image of a text is refused so.
#[track_caller]
pub fn refuses(text: &str, number: u8, offset: usize) {
    refuses_image(&image(text), number, offset);
}

/// Asserts that an image is refused so.
#[track_caller]
pub fn refuses_image(image: &[u8], number: u8, offset: usize) {
    let expected = Verdict::Refused(Refusal { number, offset });
    let found = verdict(image);
    assert!(
        found == expected,
        "expected {expected:?}, found {found:?}\n{}",
        text::listing(image)
    );
}

/// A run under the monitor of demand 3.
pub struct Run {
    pub program: Program,
    pub state: State,
}

impl Run {
    /// Begins at 0.0 of the image of a text.
    #[track_caller]
    pub fn begin(text: &str, words: &[Integer]) -> Run {
        let program = Program::accept(&image(text)).expect("an accepted image");
        let state = State::begin(&program, PORTAL, 0, 0, words, &UNTOUCHED).expect("a run begins");
        check_state(&program, &state).expect("demand 3 holds at the start");
        Run { program, state }
    }

    /// A single step.
    #[track_caller]
    pub fn step(&mut self) -> Said {
        let before = self.state.clone();
        let (after, said) = before.clone().step(&self.program);
        check_step(&self.program, &before, said).expect("demand 3 holds of the step");
        check_state(&self.program, &after).expect("demand 3 holds after the step");
        self.state = after;
        said
    }

    /// Single steps that go on.
    #[track_caller]
    pub fn steps(&mut self, count: usize) -> &mut Run {
        for _ in 0..count {
            assert_eq!(self.step(), Said::GoesOn);
        }
        self
    }

    /// A budget with a long enough buffer.
    pub fn budget(&mut self, budget: Steps) -> (Answer, Steps) {
        let (state, answer, steps) =
            self.state
                .clone()
                .budget(&self.program, budget, &mut UNTOUCHED.clone());
        self.state = state;
        (answer, steps)
    }

    /// What a register of a live call holds.
    pub fn register(&self, call: usize, register: usize) -> Option<Value> {
        self.state.frames[call].registers[register]
    }

    /// What a name of a live call holds.
    pub fn name(&self, call: usize, name: usize) -> Option<Value> {
        self.state.frames[call].names[name]
    }
}

/// How a run of 0.0 ends when it is stepped to its end, and the steps that counted.
#[track_caller]
pub fn end_of(text: &str, words: &[Integer]) -> (End, usize) {
    let mut run = Run::begin(text, words);
    for taken in 0..100_000 {
        if let Said::Ended(end) = run.step() {
            return (end, taken + usize::from(end.counts()));
        }
    }
    panic!("the run goes on and on");
}

/// Asserts that a run of 0.0 is DONE with an integer.
#[track_caller]
pub fn gives(text: &str, words: &[Integer], integer: Integer) {
    assert_eq!(end_of(text, words).0, End::Integer(integer));
}

/// Asserts that a run of 0.0 makes UNDEF.
#[track_caller]
pub fn undefined(text: &str, words: &[Integer]) {
    assert_eq!(end_of(text, words).0, End::Undef);
}
