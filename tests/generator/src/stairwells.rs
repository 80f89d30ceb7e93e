//! A block of stairwells: what each of eight numbers reserves in a pool, and what is asked
//! under them in turn.

use crate::damage::damage;
use crate::hoards::hoard;
use crate::random::Random;
use crate::run::{self, Event};
use crate::special::Special;
use crate::theme::{self, Theme};
use reference::bounds::{Steps, BUFFER, VECTORS};
use reference::pool::{Start, RUNS};
use reference::questions::QUESTIONS;
use reference::Program;

/// What is asked under a number.
#[derive(Clone, PartialEq, Eq, Debug)]
pub enum Ask {
    /// A start, lent a buffer of so many places.
    Start {
        /// What is started.
        start: Start,
        /// The places lent.
        places: usize,
        /// The steps that are given with it; none where it is to begin alone.
        budget: Option<Steps>,
    },
    /// A step, a budget or a change of the image.
    Event(Event),
    /// A step back, which no run in a pool takes.
    Back,
}

/// Something asked under a number, which may be none.
#[derive(Clone, PartialEq, Eq, Debug)]
pub struct Asked {
    /// The number.
    pub number: usize,
    /// What is asked.
    pub ask: Ask,
}

/// Reserves, and what is asked.
#[derive(Clone, PartialEq, Eq, Debug)]
pub struct Stairwells {
    /// The reserves of the pool; in some blocks they sum above 64.
    pub reserves: [u8; RUNS],
    /// What is asked, in turn.
    pub asks: Vec<Asked>,
}

/// The functions of an image that has no more.
const LAST_FUNCTION: usize = 31;

/// A block of stairwells: scripts that need few and many vectors, started, stepped, given
/// budgets, changed and started anew over each other, refused ones among them.
pub fn block(random: &mut Random) -> Stairwells {
    let crowded = random.percent(35);
    let reserves = if crowded {
        few(random)
    } else {
        reserves(random)
    };
    let script = if crowded { hoard } else { script };
    let scripts: Vec<Start> = (0..2 + random.below(3)).map(|_| script(random)).collect();
    let mut asks = Vec::new();
    for number in 0..RUNS {
        if crowded || random.percent(75) {
            let ask = start(random, &scripts);
            asks.push(Asked { number, ask });
        }
    }
    asks = random.shuffled(asks);
    for _ in 0..10 + random.below(24) {
        let (number, ask) = (number(random), ask(random, &scripts));
        asks.push(Asked { number, ask });
    }
    for number in 0..RUNS {
        let (budget, places) = (random.pick(&[40, 200, 3_000]), run::places(random));
        let ask = Ask::Event(Event::Budget { budget, places });
        asks.push(Asked { number, ask });
    }
    Stairwells { reserves, asks }
}

/// A number, sometimes one that no run has.
fn number(random: &mut Random) -> usize {
    if random.percent(96) {
        // Some numbers are asked more often than others.
        return random.below(RUNS).min(random.below(RUNS + 3));
    }
    random.pick(&[RUNS, RUNS + 1, 255, 256, usize::MAX])
}

/// What each number reserves: the same, all of it by one, or any; sometimes more than there
/// are.
fn reserves(random: &mut Random) -> [u8; RUNS] {
    match random.below(20) {
        0..=2 => return [(VECTORS / RUNS) as u8; RUNS],
        3..=4 => {
            let mut reserves = [0; RUNS];
            reserves[random.below(RUNS)] = VECTORS as u8;
            return reserves;
        }
        5 => return std::array::from_fn(|_| random.byte()),
        _ => {}
    }
    let all = random.weighted(&[
        (45, VECTORS),
        (15, VECTORS - 1),
        (17, 40),
        (17, 20),
        (6, VECTORS + 1),
    ]);
    parted(random, all)
}

/// What each number reserves where there is much to be had: little.
fn few(random: &mut Random) -> [u8; RUNS] {
    let all = random.pick(&[0, 0, 0, 4, 9, 16]);
    parted(random, all)
}

/// So many in all, by some of the numbers.
fn parted(random: &mut Random, all: usize) -> [u8; RUNS] {
    let mut reserves = [0; RUNS];
    let some = 1 + random.below(RUNS);
    for _ in 0..all {
        reserves[random.below(some)] += 1;
    }
    reserves
}

/// A script with what it begins with, all of it right.
fn script(random: &mut Random) -> Start {
    if random.percent(60) {
        return hoard(random);
    }
    let special = random.pick(&[Special::Vectors, Special::Promises, Special::Endless]);
    let theme = random.pick(&[
        Theme::Tiny,
        Theme::Single,
        Theme::Small,
        Theme::Special(special),
    ]);
    let image = theme::program(random, theme).bytes();
    let program = Program::accept(&image).expect("an accepted image");
    let Some(entry) = run::entry(random, &program) else {
        return hoard(random);
    };
    let version = program.version(entry.0, entry.1).expect("it exists");
    let (level, words) = (
        run::level(random, version.level),
        run::matching_words(random, version),
    );
    Start {
        image,
        level,
        entry,
        words,
    }
}

/// A start of one of the scripts, mostly as it should be.
fn start(random: &mut Random, scripts: &[Start]) -> Ask {
    let mut start = random.pick(scripts);
    match random.below(30) {
        0 => start.words = run::wrong_words(random, start.words),
        1 => start.entry.0 = LAST_FUNCTION,
        2 => start.level = 0,
        3 => damaged(random, &mut start),
        _ => {}
    }
    let places = if random.one_in(6) {
        run::places(random)
    } else {
        BUFFER
    };
    let budget = random.percent(40).then(|| budget(random));
    Ask::Start {
        start,
        places,
        budget,
    }
}

/// Damages the image of a start, if it can be.
fn damaged(random: &mut Random, start: &mut Start) {
    let program = Program::accept(&start.image).expect("an accepted image");
    let question = random.pick(&QUESTIONS);
    if let Some(image) = damage(random, question, &crate::draft::Draft::of(&program)) {
        start.image = image;
    }
}

/// The steps of a budget, mostly few, so that runs go on in turn.
fn budget(random: &mut Random) -> Steps {
    let (few, some) = (1 + random.below(6), random.below(40));
    random.weighted(&[(10, 0), (40, few), (45, some), (5, 300)]) as Steps
}

/// Something asked under a number.
fn ask(random: &mut Random, scripts: &[Start]) -> Ask {
    match random.below(100) {
        0..=13 => start(random, scripts),
        14..=35 => Ask::Event(Event::Step),
        36..=41 => Ask::Event(run::change(random)),
        42..=44 => Ask::Back,
        _ => {
            let few = run::places(random);
            let (budget, places) = (budget(random), random.pick(&[few, BUFFER, BUFFER]));
            Ask::Event(Event::Budget { budget, places })
        }
    }
}
