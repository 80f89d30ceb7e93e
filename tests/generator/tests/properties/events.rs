//! Event lists: budgets do what as many single steps do, buffers are kept to, and
//! changes are taken and refused.

use generator::{accepted, begun, entry, events, update, Event, Tally, Update};
use reference::bounds::BUFFER;
use reference::{change, Answer, End, Integer, Program, Refusal, Said, State, Status};

/// A budget done by single steps: the state, the answer and the steps that counted.
fn by_steps(program: &Program, mut state: State, budget: u32) -> (State, Answer, u32) {
    if let Status::Ended(end) = state.status {
        return (state, Answer::Ended(end), 0);
    }
    for taken in 0..budget {
        let (after, said) = state.step(program);
        state = after;
        match said {
            Said::GoesOn => {}
            Said::Stuck => return (state, Answer::Stuck, taken),
            Said::Ended(end) => {
                return (state, Answer::Ended(end), taken + u32::from(end.counts()));
            }
        }
    }
    (state, Answer::Steps, budget)
}

/// What the buffer holds after an answer, the rest as it was.
fn expected_buffer(state: &State, answer: Answer, places: usize) -> Vec<Integer> {
    let mut buffer = vec![77; places];
    if let Answer::Ended(End::Vector(length)) = answer {
        assert_eq!(state.result.len(), length);
        buffer[..length].copy_from_slice(&state.result);
    }
    buffer
}

/// A run, with the image that it goes on under.
struct Going {
    image: Vec<u8>,
    program: Program,
    state: State,
}

impl Going {
    /// Does one event, and checks it; what is met.
    fn act(&mut self, event: Event) -> String {
        match event {
            Event::Step => {
                let (after, said) = self.state.clone().step(&self.program);
                self.state = after;
                format!("step: {}", kind(&format!("{said:?}")))
            }
            Event::Budget { budget, places } => {
                let answer = self.budget(budget, places);
                format!("budget: {}", kind(&format!("{answer:?}")))
            }
            Event::Change { aim, seed } => self.change(aim, seed),
        }
    }

    /// A budget, checked against single steps; its answer.
    fn budget(&mut self, budget: u32, places: usize) -> Answer {
        let (program, state) = (&self.program, self.state.clone());
        let mut buffer = vec![77; places];
        let (after, answer, steps) = state.clone().budget(program, budget, &mut buffer);
        if places < BUFFER {
            let (number, offset) = (13, 0);
            assert_eq!(answer, Answer::Refused(Refusal { number, offset }));
            assert_eq!((&after, steps), (&state, 0));
            assert_eq!(buffer, vec![77; places]);
        } else {
            let expected = by_steps(program, state, budget);
            assert_eq!(buffer, expected_buffer(&after, answer, places));
            assert_eq!((after.clone(), answer, steps), expected);
        }
        self.state = after;
        answer
    }

    /// A change, whose new image takes the old one's place where it is accepted.
    fn change(&mut self, aim: Update, seed: u64) -> String {
        let new = update(aim, seed, &self.image, &self.state.live_versions());
        match change(&self.image, &new, &self.state) {
            Ok(()) => {
                self.program = Program::accept(&new).expect("an accepted image");
                self.image = new;
                "change: taken".to_string()
            }
            Err(refusal) => format!("change: refused by {}", refusal.number),
        }
    }
}

/// An answer without its numbers.
fn kind(answer: &str) -> String {
    answer.chars().filter(|c| c.is_alphabetic()).collect()
}

#[test]
fn budgets_do_what_single_steps_do_and_write_only_items() {
    let mut met = Tally::default();
    for seed in 0..2500 {
        let image = accepted(seed);
        let program = Program::accept(&image).expect("an accepted image");
        let Some(state) = begun(seed, &program) else {
            continue;
        };
        let mut run = Going {
            image,
            program,
            state,
        };
        for event in events(seed) {
            let ended = matches!(run.state.status, Status::Ended(_));
            let answer = run.act(event);
            met.meet((if ended { "ended" } else { "running" }, answer));
        }
    }
    println!("{met}");
    for answer in ["EndedInteger", "EndedVector", "EndedUndef", "EndedDeep"] {
        for before in ["running", "ended"] {
            assert!(met.count(&(before, format!("budget: {answer}"))) >= 5);
            assert!(met.count(&(before, format!("step: {answer}"))) >= 5);
        }
    }
    assert!(met.count(&("running", "budget: Steps".to_string())) >= 50);
    for answer in ["taken", "refused by 15", "refused by 7"] {
        for before in ["running", "ended"] {
            assert!(met.count(&(before, format!("change: {answer}"))) >= 5);
        }
    }
}

#[test]
fn words_are_sometimes_wrong() {
    let mut met = Tally::default();
    for seed in 0..1000 {
        let program = Program::accept(&accepted(seed)).expect("an accepted image");
        met.meet(match begun(seed, &program) {
            Some(_) => "begun",
            None if entry(seed, &program).is_none() => "no entry",
            None => "refused",
        });
    }
    println!("{met}");
    assert!(met.count("begun") > 700);
    assert!(met.count("refused") > 20);
}
