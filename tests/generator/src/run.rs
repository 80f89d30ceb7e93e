//! Where runs begin, with which words, and what is done with them.

use crate::ends;
use crate::random::Random;
use crate::update::Update;
use reference::bounds::{Steps, BUFFER, ITEMS};
use reference::program::Version;
use reference::{Integer, Kind, Level, Program, Type};

/// A version that a run may begin at, mostly one of the last function.
pub fn entry(random: &mut Random, program: &Program) -> Option<(usize, usize)> {
    let enterable = program.versions.iter().filter(|v| may_begin(v));
    let enterable: Vec<&Version> = enterable.collect();
    let last = enterable.last()?.head.function;
    let of_last = enterable.iter().filter(|v| v.head.function == last);
    let of_last: Vec<&Version> = of_last.copied().collect();
    let version = match random.below(10) {
        0..=5 => of_last[0],
        6..=7 => random.pick(&of_last),
        _ => random.pick(&enterable),
    };
    Some((version.head.function.into(), version.head.version.into()))
}

/// Has the version no promise parameter?
fn may_begin(version: &Version) -> bool {
    let parameters = version.parameters().iter();
    let mut kinds = parameters.map(|ty| ty.kind());
    !kinds.any(|kind| kind == Kind::QUIET || kind == Kind::REFLECTIVE)
}

/// The level that a run of an entry states: one that may enter it, its own most
/// often, sometimes above 2.
pub fn level(random: &mut Random, entry: Level) -> usize {
    let own = usize::from(entry.0);
    let highest = usize::from(Level::FACTORY.0);
    let above = highest + 1 + random.below(300);
    random.weighted(&[
        (40, own),
        (20, highest),
        (10, own.max(1)),
        (5, highest + 1),
        (4, above),
        (4, usize::MAX),
        (2, usize::MAX << 8),
    ])
}

/// Words that match the parameters of a version.
pub fn matching_words(random: &mut Random, version: &Version) -> Vec<Integer> {
    let parameters = version.parameters().iter();
    let arguments = parameters.flat_map(|&ty| argument(random, ty));
    arguments.collect()
}

/// The words of an argument for a parameter.
fn argument(random: &mut Random, parameter: Type) -> Vec<Integer> {
    let vector = match parameter.kind() {
        Kind::VECTOR => true,
        Kind::INTEGER => false,
        _ => random.one_in(2),
    };
    if !vector {
        return vec![-1, integer(random)];
    }
    let often = [0, 1, 2, 3, 4, 8, ITEMS, random.below(ITEMS + 1)];
    let length = random.pick(&often);
    let mut words = vec![length as Integer];
    words.extend((0..length).map(|_| integer(random)));
    words
}

/// An integer, mostly small, sometimes at an end of either range.
fn integer(random: &mut Random) -> Integer {
    match random.below(20) {
        0 => ends::integer(random),
        1 => random.number() as Integer >> random.below(64),
        2..=5 => random.between(-1000, 1000),
        _ => random.between(-3, 12),
    }
}

/// What leaves the low 32 bits of a head word as they are.
const HIGH_BITS: [Integer; 5] = [
    1 << 32,
    -(1 << 32),
    1 << 33,
    1 << 62,
    Integer::MIN + (1 << 32),
];

/// The words with one thing wrong, or by chance still right.
pub fn wrong_words(random: &mut Random, mut words: Vec<Integer>) -> Vec<Integer> {
    match random.below(5) {
        0 => words.push(integer(random)),
        1 => drop(words.pop()),
        2 if !words.is_empty() => words[0] += random.pick(&HIGH_BITS),
        3 if !words.is_empty() => {
            let heads = [-2, -1, 0, 1, 16, 17, Integer::MIN, Integer::MAX];
            let at = random.below(words.len());
            words[at] = random.pick(&heads);
        }
        _ => words.insert(0, random.pick(&[-1, 0, 5, 17, 1 << 32])),
    }
    words
}

/// One thing done with a run.
#[derive(Clone, Copy, PartialEq, Eq, Debug)]
pub enum Event {
    /// A single step.
    Step,
    /// A budget, lent a buffer of so many places.
    Budget {
        /// The steps given.
        budget: Steps,
        /// The places lent.
        places: usize,
    },
    /// A change to a new image.
    Change {
        /// How it is to differ from the one in force.
        aim: Update,
        /// What decides all else of it.
        seed: u64,
    },
}

/// A list of things done with a run; it goes past the end of most runs.
pub fn event_list(random: &mut Random) -> Vec<Event> {
    let events = without_changes(random);
    if random.percent(40) {
        let mut list = changing(random);
        list.extend(events);
        list.push(change(random));
        return list;
    }
    events
}

/// Changes with a few steps before each.
fn changing(random: &mut Random) -> Vec<Event> {
    let mut events = Vec::new();
    for _ in 0..1 + random.below(5) {
        let (budget, places) = (random.below(25) as Steps, BUFFER);
        events.push(Event::Budget { budget, places });
        events.extend((0..1 + random.below(2)).map(|_| change(random)));
    }
    events
}

/// A change of any aim.
pub fn change(random: &mut Random) -> Event {
    let (aim, seed) = (Update::any(random), random.number());
    Event::Change { aim, seed }
}

/// A list of steps and budgets.
pub fn without_changes(random: &mut Random) -> Vec<Event> {
    let length = random.pick(&[0, 1, 2, 3, 5, 8, 20]);
    let mut events: Vec<Event> = (0..length).map(|_| event(random)).collect();
    if random.percent(15) {
        events.extend([Event::Step; 100]);
    }
    if random.percent(70) {
        let places = places(random);
        events.push(Event::Budget {
            budget: 20_000,
            places,
        });
        events.extend((0..random.below(4)).map(|_| event(random)));
    }
    events
}

/// A step or a budget of any size.
fn event(random: &mut Random) -> Event {
    if random.percent(50) {
        return Event::Step;
    }
    let budget = match random.below(8) {
        0 | 1 => 0,
        2..=4 => 1 + random.below(4) as Steps,
        5 | 6 => random.below(60) as Steps,
        _ => random.pick(&[1000, 5000, 20_000]),
    };
    let places = places(random);
    Event::Budget { budget, places }
}

/// Mostly enough places, sometimes too few.
pub fn places(random: &mut Random) -> usize {
    let few = random.below(BUFFER);
    random.weighted(&[
        (60, BUFFER),
        (15, BUFFER + 1),
        (10, 40),
        (8, BUFFER - 1),
        (7, few),
    ])
}
