//! Trails of any bytes: any state as the start, beside any state, with any count.

use crate::both::{answer, read, said};
use crate::{states, Given};
use definitions::{Answer, Behind, State};
use differential::snapshot::{arrays, meaning};
use generator::{update, Random, Tally, Update};
use library::{Kept, Run, Trail};
use reference::change::change_from;

/// The most steps that a start is tried for, and a state goes back to, unless it ends or is
/// stuck before.
const MOST: u32 = 200;

/// The turns of a case.
const TURNS: usize = 6;

/// Counts at and near the ends of their range.
const COUNTS: [u32; 5] = [0, 1, 2, u32::MAX - 1, u32::MAX];

/// The fewest of each thing that is met.
pub const FEWEST: [(&str, usize); 10] = [
    ("back: taken", 100_000),
    ("back: taken, the start ends or is stuck before", 50_000),
    ("back: taken, it is the start", 5_000),
    ("back: refused, none lies behind", 20_000),
    ("back: refused, past", 20_000),
    ("step: counts", 20_000),
    ("step: does not count", 20_000),
    ("over the edge", 1_000),
    ("change: taken", 1_000),
    ("change: refused", 3_000),
];

/// A trail on both sides.
struct Both {
    found: Trail<'static>,
    expected: definitions::Trail,
    origin: String,
}

/// A start of the bytes of a state, with this count.
fn kept(state: &library::State, steps: u32, past: u8) -> Kept {
    let (bytes, numbers) = arrays(state);
    Kept {
        numbers: *numbers,
        bytes: *bytes,
        steps,
        past,
    }
}

/// A count for a start: any, where its run ends or is stuck within few steps.
fn count(start: &State, program: &library::Program, random: &mut Random) -> (u32, u8) {
    let ran = start.clone().run(read(program), MOST);
    let (few, any) = (random.below(60) as u32, random.number() as u32);
    let edge = random.pick(&COUNTS);
    let steps = match ran.answer {
        Answer::Steps => random.pick(&[0, 1, 2, few, few, MOST]),
        _ => random.pick(&[few, few, any, edge, edge, edge]),
    };
    let past = if random.one_in(6) { random.byte() } else { 0 };
    (steps, past)
}

impl Both {
    /// Asserts that both are in the same state with the same count; a trail that is past
    /// the most steps says so by 1, or as it did before.
    #[track_caller]
    fn assert_same(&self, before: &Kept) {
        let origin = &self.origin;
        let found = meaning(self.found.state());
        if let Some(different) = self.expected.state.difference(&found) {
            panic!("{origin}: {different}");
        }
        let kept = self.found.kept();
        let behind = Behind::read(kept.steps, kept.past);
        assert_eq!(self.expected.behind, behind, "{origin}");
        if behind == Behind::Past {
            assert_eq!(kept.steps, before.steps, "{origin}: past, the steps stay");
            assert!([1, before.past].contains(&kept.past), "{origin}");
        }
    }

    /// A single step.
    #[track_caller]
    fn step(&mut self, met: &mut Tally<String>) {
        let (program, before) = (self.found.program().clone(), self.expected.behind);
        let mut plain = self.found.run().clone();
        let word = said(self.expected.step(read(&program)));
        assert_eq!(word, self.found.step(), "{}: a step", self.origin);
        assert_eq!(word, plain.step(), "{}: a plain step", self.origin);
        assert!(plain.state() == self.found.state(), "{}", self.origin);
        self.meet_count(before, met);
    }

    /// Meets what became of the count.
    fn meet_count(&self, before: Behind, met: &mut Tally<String>) {
        met.meet(match (before, self.expected.behind) {
            (Behind::Steps(_), Behind::Past) => "over the edge".to_string(),
            (before, after) if before == after => "step: does not count".to_string(),
            _ => "step: counts".to_string(),
        });
    }

    /// A budget.
    #[track_caller]
    fn budget(&mut self, random: &mut Random, met: &mut Tally<String>) {
        let (program, before) = (self.found.program().clone(), self.expected.behind);
        let (budget, places) = (
            random.below(40) as u32,
            random.pick(&[16, 16, 16, 20, 15, 0]),
        );
        let (mut expected, mut found) = ([-7; 24], [-7; 24]);
        let right = self
            .expected
            .budget(read(&program), budget, &mut expected[..places]);
        let ran = self.found.budget(budget, &mut found[..places]);
        let both = ((answer(right.answer), right.steps), (ran.answer, ran.steps));
        assert_eq!(both.0, both.1, "{}: a budget of {budget}", self.origin);
        assert_eq!(expected, found, "{}: the buffer", self.origin);
        self.meet_count(before, met);
    }

    /// A change, which is a new start where it is taken.
    #[track_caller]
    fn change(&mut self, new: &[u8], met: &mut Tally<String>) {
        let (live, before) = (self.expected.state.live_versions(), self.found.clone());
        let asked = change_from(self.found.image(), new, &live);
        let program = library::Program::load(new);
        let program = program.unwrap_or_else(|_| library::Program::of_any_bytes(new, []));
        let found = self.found.change(program);
        let expected = asked.map_err(|no| (no.number, no.offset));
        let found = found.map_err(|no| (no.question, no.offset));
        assert_eq!(expected, found, "{}: a change", self.origin);
        assert!(before.state() == self.found.state(), "{}", self.origin);
        if expected.is_ok() {
            self.expected.change();
            let start = self.found.kept().start();
            assert!(start == *self.found.state(), "{}", self.origin);
            met.meet("change: taken".to_string());
        } else {
            assert!(before.kept() == self.found.kept(), "{}", self.origin);
            met.meet("change: refused".to_string());
        }
    }

    /// A step back.
    #[track_caller]
    fn back(&mut self, met: &mut Tally<String>) {
        let (program, before) = (self.found.program().clone(), self.found.clone());
        let expected = self.expected.back(read(&program)).map_err(|no| (no, 0));
        let found = self.found.back().map_err(|no| (no.question, no.offset));
        assert_eq!(expected, found, "{}: a step back", self.origin);
        if expected.is_err() {
            assert!(before.state() == self.found.state(), "{}", self.origin);
            assert!(before.kept() == self.found.kept(), "{}", self.origin);
            let past = before.behind().is_none();
            let why = if past { "past" } else { "none lies behind" };
            met.meet(format!("back: refused, {why}"));
            return;
        }
        met.meet("back: taken".to_string());
        let less = before.behind().map_or(0, |steps| steps - 1);
        let ran = self.expected.start.clone().run(read(&program), less);
        if ran.steps < less {
            met.meet("back: taken, the start ends or is stuck before".to_string());
        } else if less == 0 {
            met.meet("back: taken, it is the start".to_string());
        }
        let start = before.kept().start() == self.found.kept().start();
        assert!(start, "{}: the start stays", self.origin);
    }
}

/// Turns of a trail of any bytes on both sides.
pub fn run(given: &Given, random: &mut Random, met: &mut Tally<String>) {
    let (Some((_, state)), Some((sort, start))) =
        (states::any(given, random), states::any(given, random))
    else {
        return;
    };
    met.meet("cases".to_string());
    met.meet(format!("start: {sort}"));
    let (steps, past) = count(&meaning(&start), &given.program, random);
    let kept = kept(&start, steps, past);
    let expected = definitions::Trail {
        start: meaning(&start),
        behind: Behind::read(steps, past),
        state: meaning(&state),
    };
    let run = Run::resume_with_its_own_program(state, given.program.clone());
    let mut both = Both {
        found: Trail::resume_with_its_own_run(run, kept),
        expected,
        origin: given.case(sort),
    };
    for _ in 0..TURNS {
        let before = both.found.kept().clone();
        match random.below(12) {
            0..=2 => both.step(met),
            3..=4 => both.budget(random, met),
            5 => {
                let live = [(given.entry.0 as u8, given.entry.1 as u8)].into();
                let aim = Update::any(random);
                both.change(&update(aim, random.number(), &given.image, &live), met);
            }
            _ => both.back(met),
        }
        both.assert_same(&before);
    }
}
