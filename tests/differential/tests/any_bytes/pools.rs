//! Pools of any bytes, with states of any bytes under any number.

use crate::both::{answer, read, said};
use crate::{states, Given};
use definitions::pools::RUNS;
use definitions::{Answer, Instruction, Pool, Said, State};
use differential::snapshot::meaning;
use generator::{update, Random, Tally, Update};
use library::{Entry, Refusal, Run, Start, Store, FACTORY, FIR_PLACES};
use reference::change::change_from;

/// The asks of a case.
const ASKS: usize = 6;

/// The fewest of each thing that is met.
pub const FEWEST: [(&str, usize); 22] = [
    ("21 by the number", 2_000),
    ("21 by the reserves", 20_000),
    ("pool: others have more than there are", 10_000),
    ("pool: the run may have 0", 10_000),
    ("pool: the run may have 64", 5_000),
    ("pool: the run has more than it may have", 20_000),
    ("step: goes on", 20_000),
    ("step: stuck", 10_000),
    ("step: of an ended run", 5_000),
    ("stopped by the pool alone", 800),
    ("step: stuck at VEC or DUP, and full", 300),
    ("budget: Steps", 10_000),
    ("budget: Stuck", 7_000),
    ("budget: Refused", 5_000),
    ("begin: begun", 8_000),
    ("begin: stops at once", 500),
    ("begin: refused by 11", 2_000),
    ("begin: refused by 12", 400),
    ("begin: refused by 13", 2_000),
    ("change: taken", 1_000),
    ("change: refused by 15", 1_000),
    ("back: refused by 20", 10_000),
];

/// A number's run in a pool on both sides.
struct Both<'p> {
    store: Store,
    run: Run<'p>,
    pool: Pool,
    state: State,
    number: usize,
    origin: String,
}

/// A pool of any bytes: reserves that mostly sum to at most 64, and any counts.
fn any(random: &mut Random) -> Store {
    let mut store = Store::default();
    for reserve in &mut store.reserves {
        let some = random.below(17) as u8;
        *reserve = random.pick(&[0, 0, 0, some]);
    }
    match random.below(16) {
        0 => store.reserves.fill_with(|| random.byte()),
        1 => store.reserves[random.below(RUNS)] = random.pick(&[64, 65, 255]),
        2..=4 => store.reserves = [0; RUNS],
        _ => {}
    }
    let most = random.pick(&[1, 2, 4, 9, 20, 66, 256]);
    store.has.fill_with(|| random.below(most) as u8);
    store
}

/// What refuses, in the words of the library.
fn no(question: u8) -> Refusal {
    let offset = 0;
    Refusal { question, offset }
}

impl<'p> Both<'p> {
    /// Asserts that both are the same, and that a refusal left all as it was.
    #[track_caller]
    fn assert_same(&self, before: &(Store, library::State), refused: bool) {
        let found = meaning(self.run.state());
        if let Some(different) = self.state.difference(&found) {
            panic!("{}: {different}", self.origin);
        }
        let Pool { reserves, has } = self.pool;
        assert_eq!(Store { reserves, has }, self.store, "{}", self.origin);
        if refused {
            assert_eq!(before.0, self.store, "{}: a refusal", self.origin);
            let left = before.1 == *self.run.state();
            assert!(left, "{}: a refusal leaves every byte", self.origin);
        }
    }

    /// Meets 21 by its cause; is it that?
    fn meet_21(&self, question: u8, met: &mut Tally<String>) -> bool {
        if question == definitions::pools::POOL_QUESTION {
            met.meet(match self.number < RUNS {
                true => "21 by the reserves".to_string(),
                false => "21 by the number".to_string(),
            });
            return true;
        }
        false
    }

    /// Does the run stand at a VEC or a DUP, with as many vectors as it may have?
    fn stands_full(&self) -> bool {
        let instruction = self.state.instruction(read(self.run.program()));
        let makes = matches!(
            instruction,
            Some(Instruction::Vec { .. } | Instruction::Dup { .. })
        );
        let asked = self.pool.ask(self.number).is_ok();
        makes && asked && self.state.vectors_in() >= self.pool.allowed(self.number)
    }

    /// A single step; is it refused?
    #[track_caller]
    fn step(&mut self, met: &mut Tally<String>) -> bool {
        let program = read(self.run.program());
        let mut plain = self.state.clone();
        let ended = self.run.state().status != 0;
        let full = self.stands_full();
        let expected = self.pool.step(self.number, program, &mut self.state);
        let without = plain.step(program);
        let found = self.store.step(self.number, &mut self.run);
        let right = expected.map(said).map_err(no);
        assert_eq!(right, found, "{}: a step", self.origin);
        match expected {
            Err(question) => return self.meet_21(question, met),
            Ok(_) if ended => met.meet("step: of an ended run".to_string()),
            Ok(Said::GoesOn) => met.meet("step: goes on".to_string()),
            Ok(Said::Stuck) => {
                met.meet("step: stuck".to_string());
                if full {
                    met.meet("step: stuck at VEC or DUP, and full".to_string());
                }
            }
            Ok(word) if word != without => met.meet("stopped by the pool alone".to_string()),
            Ok(_) => {}
        }
        false
    }

    /// A budget; is it refused?
    #[track_caller]
    fn budget(&mut self, random: &mut Random, met: &mut Tally<String>) -> bool {
        let program = read(self.run.program());
        let budget = random.pick(&[0, 1, 2, 5, 40]);
        let places = random.pick(&[16, 16, 16, 20, 15, 0]);
        let (mut expected, mut found) = ([-7; 24], [-7; 24]);
        let right = self.pool.budget(
            self.number,
            program,
            &mut self.state,
            budget,
            &mut expected[..places],
        );
        let ran = self
            .store
            .budget(self.number, &mut self.run, budget, &mut found[..places]);
        let both = ((answer(right.answer), right.steps), (ran.answer, ran.steps));
        assert_eq!(both.0, both.1, "{}: a budget of {budget}", self.origin);
        assert_eq!(expected, found, "{}: the buffer", self.origin);
        let name = format!("{:?}", right.answer);
        let name: String = name.chars().take_while(|c| c.is_alphabetic()).collect();
        met.meet(format!("budget: {name}"));
        match right.answer {
            Answer::Refused(question) => {
                self.meet_21(question, met);
                true
            }
            _ => false,
        }
    }

    /// A start over the state, with a budget or without one; is it refused?
    #[track_caller]
    fn start(&mut self, given: &Given, random: &mut Random, met: &mut Tally<String>) -> bool {
        let (mut function, version) = given.entry;
        function += usize::from(random.one_in(8)) * 40;
        let (entry, words) = (Entry { function, version }, &given.words[..]);
        let places = random.pick(&[16, 16, 16, 17, 15]);
        let program = read(self.run.program());
        let begin = || State::begin(program, FACTORY, (function, version), words, places);
        let right = self.pool.begin(self.number, begin);
        let level = FACTORY;
        let start = Start {
            level,
            entry,
            words,
        };
        let (buffer, program) = (&[0; 24][..places], self.run.program().clone());
        let begun = self
            .store
            .begin(self.number, &mut self.run, program, start, buffer);
        let asked = right.as_ref().map(|_| ()).map_err(|&question| no(question));
        assert_eq!(asked, begun, "{}: a start", self.origin);
        match right {
            Err(question) if self.meet_21(question, met) => true,
            Err(question) => {
                met.meet(format!("begin: refused by {question}"));
                true
            }
            Ok(state) => {
                let full = state.calls == 0;
                let became = if full { "stops at once" } else { "begun" };
                met.meet(format!("begin: {became}"));
                self.state = state;
                false
            }
        }
    }

    /// A change that is asked for, and not taken.
    #[track_caller]
    fn change(&mut self, new: &[u8], met: &mut Tally<String>) {
        let live = self.state.live_versions();
        let changed = || change_from(self.run.image(), new, &live);
        let expected = match self.pool.ask(self.number) {
            Err(question) => Err((question, 0)),
            Ok(()) => changed().map_err(|no| (no.number, no.offset)),
        };
        let found = self.store.may_change(self.number, &self.run, new);
        let found = found.map_err(|no| (no.question, no.offset));
        assert_eq!(expected, found, "{}: a change", self.origin);
        match expected {
            Ok(()) => met.meet("change: taken".to_string()),
            Err((question, _)) if self.meet_21(question, met) => {}
            Err((question, _)) => met.meet(format!("change: refused by {question}")),
        }
    }

    /// A step back, which is refused.
    #[track_caller]
    fn back(&self, met: &mut Tally<String>) {
        let question = self.pool.back(self.number);
        assert_eq!(
            no(question),
            self.store.back(self.number),
            "{}",
            self.origin
        );
        if !self.meet_21(question, met) {
            met.meet(format!("back: refused by {question}"));
        }
    }

    /// Meets what the pool is like.
    fn meet_pool(&self, met: &mut Tally<String>) {
        if self.pool.ask(self.number).is_err() {
            return;
        }
        let allowed = self.pool.allowed(self.number);
        assert_eq!(allowed, self.store.may_have(self.number), "{}", self.origin);
        let mut meet = |test: bool, thing: &str| {
            if test {
                met.meet(format!("pool: {thing}"));
            }
        };
        let has = self.store.has.map(usize::from);
        let others = has.iter().sum::<usize>() - has[self.number];
        meet(others > FIR_PLACES, "others have more than there are");
        meet(allowed == 0, "the run may have 0");
        meet(allowed == FIR_PLACES, "the run may have 64");
        let own = self.state.vectors_in();
        meet(own > allowed, "the run has more than it may have");
    }
}

/// Asks under a number of a pool of any bytes, on both sides.
pub fn run(given: &Given, random: &mut Random, met: &mut Tally<String>) {
    let Some((sort, state)) = states::any(given, random) else {
        return;
    };
    met.meet("cases".to_string());
    met.meet(format!("state: {sort}"));
    let store = any(random);
    let few = random.below(RUNS);
    let Store { reserves, has } = store;
    let mut both = Both {
        store,
        pool: Pool { reserves, has },
        state: meaning(&state),
        run: Run::resume_with_its_own_program(state, &given.program),
        number: random.weighted(&[(94, few), (3, RUNS), (3, usize::MAX)]),
        origin: given.case(sort),
    };
    for _ in 0..ASKS {
        both.meet_pool(met);
        let before = (both.store, both.run.state().clone());
        let refused = match random.below(12) {
            0..=5 => both.step(met),
            6..=8 => both.budget(random, met),
            9 => both.start(given, random, met),
            10 => {
                let live = [(given.entry.0 as u8, given.entry.1 as u8)].into();
                let aim = Update::any(random);
                both.change(&update(aim, random.number(), &given.image, &live), met);
                true
            }
            _ => {
                both.back(met);
                true
            }
        };
        both.assert_same(&before, refused);
    }
}
