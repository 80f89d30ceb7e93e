//! Runs of an image alone, beside those of the joined one under its new number: at each
//! level the same beginning, the same replies to a list of single steps and budgets, the
//! same buffers, and the same state but for the functions of live calls.

use crate::Pair;
use differential::difference::difference;
use differential::engine;
use differential::paced::Paced;
use differential::snapshot::state_of;
use generator::{entry, steps_and_budgets, words, Event, Tally};
use library::{FIR_STRIDE, OWNER};
use reference::bounds::BUFFER;
use reference::joins::Sizes;
use reference::{Answer, Integer, Program, Refusal, Said};

/// The levels that runs state; the last one, which counts as the one before it, in one
/// pair of eight.
const LEVELS: [usize; 4] = [0, 1, 2, usize::MAX];

/// Where a joined image has more bytes, its runs state one level alone, for time.
const SMALL: usize = 6_000;

/// How many events a run takes at the levels above the lowest that begins it, where it is
/// the same run.
const FEW_EVENTS: usize = 8;

/// An image within a joined one.
struct Part<'a> {
    /// The seed of the pair, and which image of it this is.
    pair: u64,
    name: &'static str,
    image: &'a [u8],
    program: &'a Program,
    joined: &'a [u8],
    /// How many functions and bytes stand before it there.
    functions: usize,
    bytes: usize,
}

/// Two runs that are to be alike.
struct Twins<'a> {
    part: &'a Part<'a>,
    alone: Paced<'static>,
    together: Paced<'static>,
    origin: &'a str,
}

/// Asserts that both images of a pair run in the joined one as they do alone, and that
/// what lies behind both is refused by 11.
pub fn assert_alike(
    seed: u64,
    pair: &Pair,
    joined: &[u8],
    [first, second]: [Sizes; 2],
    met: &mut Tally<String>,
) {
    let of = |image, program, name, before: Option<Sizes>| Part {
        pair: seed,
        name,
        image,
        program,
        joined,
        functions: before.map_or(0, |before| before.functions),
        bytes: before.map_or(0, |before| before.bytes),
    };
    let (Ok(own), Ok(other)) = (&pair.first, &pair.second) else {
        return;
    };
    of(&pair.given.first, own, "first", None).assert_alike(seed, met);
    of(&pair.given.second, other, "second", Some(first)).assert_alike(!seed, met);
    let behind = first.functions + second.functions + (seed % 3) as usize;
    let level = LEVELS[(seed % 4) as usize];
    let entry = (behind, (seed % 5) as usize);
    let begun = engine::begin(joined, level, entry, &[-1, 7], &[0; BUFFER]).1;
    let no = Refusal {
        number: 11,
        offset: 0,
    };
    assert_eq!(begun, Err(no), "seed {seed}: {entry:?} lies behind both");
    met.meet("behind both".to_string());
}

/// The levels that the runs of a pair state.
fn levels(seed: u64, joined: &[u8]) -> &'static [usize] {
    match (joined.len() > SMALL, seed % 8) {
        (true, rest) => &LEVELS[(rest % 3) as usize..][..1],
        (false, 0) => &LEVELS,
        (false, _) => &LEVELS[..3],
    }
}

impl Part<'_> {
    /// Asserts that an entry of the image runs in the joined one as it does alone.
    fn assert_alike(&self, seed: u64, met: &mut Tally<String>) {
        let Some(entry) = entry(seed, self.program) else {
            return;
        };
        let words = words(seed, self.program, entry);
        let mut events = steps_and_budgets(seed);
        // Now and then a version that may not be there, or a buffer that is too short.
        let version = match seed % 16 {
            5 => (seed / 16 % 5) as usize,
            _ => entry.1,
        };
        let places = match seed % 64 {
            9 => BUFFER - 1,
            _ => BUFFER,
        };
        for &level in levels(seed, self.joined) {
            let Part { pair, name, .. } = self;
            let origin = format!("seed {pair}: {name} image at level {level}");
            let run = |image, function| {
                engine::begin(image, level, (function, version), &words, &vec![0; places])
            };
            let (alone, begun) = run(self.image, entry.0);
            let (together, too) = run(self.joined, self.functions + entry.0);
            assert_eq!(begun, too, "{origin}");
            met.meet(match begun {
                Ok(()) => format!("{} begins at {level}", self.name),
                Err(no) => format!("{} refused by {} to begin", self.name, no.number),
            });
            let mut twins = Twins {
                part: self,
                alone,
                together,
                origin: &origin,
            };
            if begun.is_ok() {
                twins.follow(&events, met);
                events.truncate(FEW_EVENTS);
            }
        }
    }
}

impl Twins<'_> {
    /// Does the same with both runs and asserts that they stay alike.
    fn follow(&mut self, events: &[Event], met: &mut Tally<String>) {
        self.assert_same_state(0);
        for (index, &event) in events.iter().enumerate() {
            match event {
                Event::Step => {
                    let said = engine::step(&mut self.alone);
                    let too = engine::step(&mut self.together);
                    assert_eq!(said, too, "{}: event {index}", self.origin);
                    if said != Said::GoesOn {
                        met.meet(format!("a step said {}", plain(&format!("{said:?}"))));
                    }
                }
                Event::Budget { budget, places } => self.spend(budget, places, index, met),
                Event::Change { .. } => unreachable!("the list has steps and budgets alone"),
            }
            self.assert_same_state(index + 1);
        }
    }

    /// Gives both runs a budget and asserts the same answer, steps and buffer.
    fn spend(&mut self, budget: u32, places: usize, index: usize, met: &mut Tally<String>) {
        let mut buffers = [filled(places), filled(places)];
        let [own, other] = &mut buffers;
        let ran = engine::budget(&mut self.alone, budget, own);
        let too = engine::budget(&mut self.together, budget, other);
        assert_eq!(ran, too, "{}: event {index}", self.origin);
        assert_eq!(buffers[0], buffers[1], "{}: event {index}", self.origin);
        if ran.0 != Answer::Steps {
            met.meet(format!(
                "a budget ends in {}",
                plain(&format!("{:?}", ran.0))
            ));
        }
    }

    /// Asserts that both are in the same state, and stand at the same place.
    fn assert_same_state(&self, events: usize) {
        let (functions, bytes) = (self.part.functions, self.part.bytes);
        if !self.is_same_by_numbers() {
            let mut own = state_of(self.alone.state()).expect("a state");
            let other = state_of(self.together.state()).expect("a state");
            for frame in &mut own.frames {
                frame.function += functions as u8;
            }
            assert_eq!(difference(&own, &other), None, "{}: {events}", self.origin);
        }
        let position = engine::position(&self.alone).map(|mut position| {
            position.function += functions as u8;
            position.offset += bytes;
            position
        });
        let too = engine::position(&self.together);
        assert_eq!(position, too, "{}: {events}", self.origin);
        let search = engine::search(&self.alone);
        let too = engine::search(&self.together);
        assert_eq!(search, too, "{}: {events}", self.origin);
    }

    /// Are all numbers of both states the same, with those of live calls' functions
    /// raised? Where they are not, what means nothing in them may differ; the functions of
    /// calls that have ended are left out.
    fn is_same_by_numbers(&self) -> bool {
        let (mut own, other) = (self.alone.state().clone(), self.together.state());
        for (call, at) in (OWNER..own.tags.len()).step_by(FIR_STRIDE).enumerate() {
            own.tags[at] = match call < own.calls.into() {
                true => own.tags[at] + self.part.functions as u8,
                false => other.tags[at],
            };
        }
        own == *other
    }
}

/// A buffer, no two neighbouring places alike.
fn filled(places: usize) -> Vec<Integer> {
    (0..places as Integer).map(|place| -1000 - place).collect()
}

/// The first words of what is printed of an answer, without its numbers.
fn plain(printed: &str) -> String {
    let words = printed.split(|sign: char| !sign.is_alphabetic());
    words
        .filter(|word| !word.is_empty())
        .take(2)
        .collect::<Vec<_>>()
        .join(" ")
}

/// Asserts that runs of both images met all that they can.
pub fn assert_met(met: &Tally<String>) {
    for part in ["first", "second"] {
        for level in LEVELS {
            let name = format!("{part} begins at {level}");
            assert!(met.count(&name) >= 3_000, "{name}: {}", met.count(&name));
        }
        for number in [11, 19, 12, 13] {
            let name = format!("{part} refused by {number} to begin");
            assert!(met.count(&name) >= 500, "{name}: {}", met.count(&name));
        }
    }
    for end in ["Integer", "Vector", "Undef", "Deep", "Vectors", "Promises"] {
        for by in ["a step said", "a budget ends in"] {
            let name = format!("{by} Ended {end}");
            assert!(met.count(&name) >= 100, "{name}: {}", met.count(&name));
        }
    }
    let behind = met.count("behind both");
    assert!(behind >= 30_000, "behind both: {behind}");
}
