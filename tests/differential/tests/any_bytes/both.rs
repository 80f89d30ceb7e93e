//! A run of any bytes by the proved library and by the definitions.

use definitions::{Answer, End, Program, Said, State, Value};
use differential::snapshot::meaning;
use generator::{Random, Tally};
use library::{At, Held, Register, Run, CELLS};
use reference::change::change_from;

/// The most events of a run.
const EVENTS: usize = 14;

/// Places of buffers, most of them long enough.
const PLACES: [usize; 8] = [16, 16, 16, 16, 17, 40, 15, 0];

/// Budgets.
const BUDGETS: [u32; 8] = [0, 1, 2, 3, 5, 20, 200, u32::MAX];

/// The most steps of the greatest budget: no state is run on for longer.
const MOST: u32 = 3_000;

/// A run on both sides.
pub struct Both<'p> {
    program: &'p library::Program,
    found: Run<'p>,
    expected: State,
    origin: String,
}

/// An end in the words of the library.
fn end(end: End) -> library::End {
    match end {
        End::Integer(value) => library::End::Integer(value),
        End::Vector(length) => library::End::Vector(length.into()),
        End::Undef => library::End::Undef,
        End::Deep => library::End::Deep,
        End::Vectors => library::End::Vectors,
        End::Promises => library::End::Promises,
    }
}

/// What a step says, in the words of the library.
pub fn said(said: Said) -> library::Said {
    match said {
        Said::GoesOn => library::Said::GoesOn,
        Said::Ended(how) => library::Said::Ended(end(how)),
        Said::Stuck => library::Said::Stuck,
    }
}

/// What a budget answers, in the words of the library.
pub fn answer(answer: Answer) -> library::Answer {
    match answer {
        Answer::Steps => library::Answer::Steps,
        Answer::Ended(how) => library::Answer::Ended(end(how)),
        Answer::Stuck => library::Answer::Stuck,
        Answer::Refused(question) => library::Answer::Refused(library::Refusal {
            question,
            offset: 0,
        }),
    }
}

/// The letters of a name, up to the first sign that is none.
fn name(printed: &str) -> String {
    printed.chars().take_while(|c| c.is_alphabetic()).collect()
}

/// The image and the table of a program.
pub fn read(program: &library::Program) -> Program<'_> {
    Program {
        image: program.image(),
        table: program.table(),
    }
}

impl<'p> Both<'p> {
    /// A run that goes on from a state, whatever it is.
    pub fn new(program: &'p library::Program, state: library::State, origin: String) -> Both<'p> {
        Both {
            program,
            expected: meaning(&state),
            found: Run::resume_with_its_own_program(state, program),
            origin,
        }
    }

    /// What the run stands at, in a word.
    fn stands_at(&self) -> String {
        let program = read(self.program);
        match self.expected.instruction(program) {
            Some(instruction) => name(&format!("{instruction:?}")),
            None if self.expected.position(program).is_some() => "block end".to_string(),
            None => "nowhere".to_string(),
        }
    }

    /// Asserts that both are in the same state, and say the same of where it stands.
    #[track_caller]
    fn assert_same(&self) {
        let found = meaning(self.found.state());
        if let Some(different) = self.expected.difference(&found) {
            panic!("{}: {different}", self.origin);
        }
        let program = read(self.program);
        let position = self.expected.position(program);
        let position = position.map(|p| {
            let at = if p.at_end {
                At::BlockEnd
            } else {
                At::Instruction
            };
            let instruction = (p.block, p.instruction, p.offset);
            (at, p.function, p.version, instruction)
        });
        let found = self.found.position().map(|p| {
            let instruction = (p.block, p.instruction, p.offset);
            (p.at, p.function, p.version, instruction)
        });
        assert_eq!(position, found, "{}: the position", self.origin);
        let search = self.expected.search(program);
        let search = search.map(|s| (usize::from(s.looked), usize::from(s.versions)));
        let found = self.found.search().map(|s| (s.looked, s.versions));
        assert_eq!(search, found, "{}: the search", self.origin);
        self.assert_shown();
    }

    /// Asserts that the registers of the topmost call show the same.
    #[track_caller]
    fn assert_shown(&self) {
        let expected = self.expected.watch(read(self.program));
        let expected = expected.into_iter().map(|row| Register {
            integer: row.integer,
            items: row.items,
            declared: row.declared,
            holds: row.holds,
            length: row.length,
            mark: row.mark,
        });
        let expected: Vec<Register> = expected.collect();
        assert_eq!(
            expected,
            self.found.topmost(),
            "{}: the topmost call",
            self.origin
        );
    }

    /// Asserts that each place of a call shows the same.
    #[track_caller]
    fn assert_seen(&self, call: usize) {
        for place in 0..=CELLS {
            let expected = self.expected.look(call, place).map(|value| match value {
                Value::Empty => Held::Nothing,
                Value::Integer(integer) => Held::Integer(integer),
                Value::Vector(place) => Held::Vector(place.into()),
                Value::Promise(place) => Held::Promise(place.into()),
            });
            let found = self.found.look(call, place);
            assert_eq!(expected, found, "{}: {place} of call {call}", self.origin);
        }
    }

    /// A single step on both sides; does something change by it, as far as its word tells?
    #[track_caller]
    fn step(&mut self, met: &mut Tally<String>) -> bool {
        let (at, ended) = (self.stands_at(), self.found.state().status != 0);
        let before = self.found.state().clone();
        let word = self.expected.step(read(self.program));
        assert_eq!(said(word), self.found.step(), "{}: a step", self.origin);
        if word == Said::Stuck || ended {
            let kept = before == *self.found.state();
            assert!(kept, "{}: a step that changes nothing", self.origin);
        }
        match word {
            _ if ended => met.meet("a step of an ended run".to_string()),
            Said::GoesOn => met.meet(format!("{at}: goes on")),
            Said::Stuck => met.meet(format!("{at}: stuck")),
            Said::Ended(how) => met.meet(format!("ended: {}", name(&format!("{how:?}")))),
        }
        word == Said::GoesOn
    }

    /// A budget on both sides; does the run go on?
    #[track_caller]
    fn budget(&mut self, random: &mut Random, met: &mut Tally<String>) -> bool {
        let budget = random.pick(&BUDGETS).min(MOST);
        let (mut expected, places) = (vec![-7; 48], random.pick(&PLACES));
        let mut found = expected.clone();
        let before = self.found.state().clone();
        let right = self
            .expected
            .budget(read(self.program), budget, &mut expected[..places]);
        let ran = self.found.budget(budget, &mut found[..places]);
        let both = ((answer(right.answer), right.steps), (ran.answer, ran.steps));
        assert_eq!(both.0, both.1, "{}: a budget of {budget}", self.origin);
        assert_eq!(expected, found, "{}: the buffer", self.origin);
        let ended = before.status != 0;
        let stuck = right.answer == Answer::Stuck && right.steps == 0;
        if ended || stuck || matches!(right.answer, Answer::Refused(_)) {
            let kept = before == *self.found.state();
            assert!(kept, "{}: a budget that changes nothing", self.origin);
        }
        met.meet(match right.answer {
            Answer::Refused(question) => format!("budget: refused by {question}"),
            Answer::Ended(how) if !ended => format!("ended: {}", name(&format!("{how:?}"))),
            answer => format!("budget: {}", name(&format!("{answer:?}"))),
        });
        matches!(right.answer, Answer::Steps | Answer::Refused(_))
    }

    /// Asks on both sides whether the run may go on under another image.
    #[track_caller]
    pub fn change(&self, new: &[u8], met: &mut Tally<String>) {
        let live = self.expected.live_versions();
        let expected = change_from(self.program.image(), new, &live);
        let found = self.found.may_change(new);
        let expected = expected.map_err(|no| (no.number, no.offset));
        let found = found.map_err(|no| (no.question, no.offset));
        assert_eq!(expected, found, "{}: a change", self.origin);
        met.meet(match expected {
            Ok(()) => "change: taken".to_string(),
            Err((question, _)) => format!("change: refused by {question}"),
        });
    }

    /// Steps and budgets on both sides, past the end.
    #[track_caller]
    pub fn follow(&mut self, random: &mut Random, met: &mut Tally<String>) {
        met.meet("cases".to_string());
        self.assert_same();
        self.assert_seen(random.below(4));
        let mut after = 0;
        for _ in 0..EVENTS {
            let goes_on = match random.percent(70) {
                true => self.step(met),
                false => self.budget(random, met),
            };
            self.assert_same();
            after += usize::from(!goes_on);
            if after == 2 {
                break;
            }
        }
        self.assert_seen(random.below(4));
    }
}
