//! Deterministic images, argument words, event lists, with steps back too, new images for
//! runs that go on, and what is asked of a pool: a seed decides all of it.
//!
//! Accepted images are accepted by construction: types, marks and flow are
//! kept while a version grows. Damaged images are accepted ones with one rule
//! broken, aimed at a question. What runs will do is only expected, so that
//! most of them go on for a while and all ends are met.

mod before;
mod damage;
mod dependence;
mod draft;
mod ends;
mod fact;
mod faults;
mod grow;
mod hoards;
mod joins;
mod mends;
mod moves;
mod mutate;
mod padding;
mod random;
mod registers;
mod run;
mod special;
mod stairwells;
mod tally;
mod theme;
mod turns;
mod update;
mod world;

pub use dependence::{exact, Depending, Shape};
pub use faults::{call_up, level_fault, LEVEL_FAULTS, PLACES_OF_CALLS};
pub use grow::Trap;
pub use joins::Join;
pub use mends::{Fault, Mend};
pub use moves::Move;
pub use random::Random;
pub use run::Event;
pub use special::Special;
pub use stairwells::{Ask, Asked, Stairwells};
pub use tally::Tally;
pub use theme::Theme;
pub use turns::Turn;
pub use update::{Live, Update};

use draft::Draft;
use reference::bounds::BUFFER;
use reference::questions::QUESTIONS;
use reference::{Integer, Level, Program, State};

/// What an image was made for.
#[derive(Clone, Copy, PartialEq, Eq, PartialOrd, Ord, Debug)]
pub enum Aim {
    /// To be accepted.
    Accepted,
    /// To be refused by this question.
    Refused(u8),
    /// Nothing: its bytes were changed by chance, or are chance alone.
    Any,
}

/// An image with its aim. Accepted ones are accepted; the other aims may be missed.
#[derive(Clone, PartialEq, Eq, Debug)]
pub struct Image {
    /// The image.
    pub bytes: Vec<u8>,
    /// What it was made for.
    pub aim: Aim,
}

/// An accepted image.
pub fn accepted(seed: u64) -> Vec<u8> {
    let mut random = Random::new(seed);
    let theme = Theme::any(&mut random);
    theme::program(&mut random, theme).bytes()
}

/// An accepted image of a theme.
pub fn accepted_of(theme: Theme, seed: u64) -> Vec<u8> {
    theme::program(&mut Random::new(seed), theme).bytes()
}

/// The accepted image of the form before, whose literals have 32 bits.
pub fn accepted_before(seed: u64) -> Vec<u8> {
    let mut random = Random::new(seed);
    let theme = Theme::any(&mut random);
    before::bytes(&theme::program(&mut random, theme))
}

/// An image of either form that is to be moved to the other, with a buffer for it:
/// most can be moved, some are refused by a question of their form, by 16 or by 17.
pub fn to_move(seed: u64) -> Move {
    moves::any(&mut Random::new(seed))
}

/// Two images that are to be joined, with a buffer for them: most go together, some are
/// refused by a question to either, or by 23 for each bound and for the buffer.
pub fn to_join(seed: u64) -> Join {
    joins::any(&mut Random::new(seed))
}

/// An accepted image that is to be joined, mostly a small one.
pub fn to_join_with(seed: u64) -> Vec<u8> {
    joins::program(&mut Random::new(seed)).bytes()
}

/// A small image that one register type byte may mend, that two would, that none does, or
/// that another question refuses.
pub fn to_mend(seed: u64) -> Mend {
    mends::any(&mut Random::new(seed))
}

/// An image whose versions depend on each other in chains, loops, diamonds or crowds, one
/// of a given bound, one that was grown for runs, or one that a question refuses.
pub fn depending(seed: u64) -> Depending {
    dependence::any(&mut Random::new(seed))
}

/// An image that a question of 1 to 10, 14 or 18 should refuse.
pub fn damaged_at(question: u8, seed: u64) -> Vec<u8> {
    let mut random = Random::new(seed);
    loop {
        let draft = victim(&mut random);
        if let Some(bytes) = damage::damage(&mut random, question, &draft) {
            return bytes;
        }
    }
}

/// An accepted program to be damaged: mostly a small one, which leaves registers free.
fn victim(random: &mut Random) -> Draft {
    let theme = random.weighted(&[
        (70, Theme::Small),
        (15, Theme::Single),
        (14, Theme::Medium),
        (1, Theme::Many),
    ]);
    theme::program(random, theme)
}

/// An image that one of the questions put to an image should refuse.
pub fn damaged(seed: u64) -> Image {
    let question = Random::new(seed).pick(&QUESTIONS);
    Image {
        bytes: damaged_at(question, seed),
        aim: Aim::Refused(question),
    }
}

/// An accepted image with some bytes changed, or an image of chance.
pub fn mutated(seed: u64) -> Vec<u8> {
    let mut random = Random::new(seed);
    match random.below(10) {
        0 => mutate::raw(&mut random),
        1 | 2 => mutate::records(&mut random),
        _ => {
            let image = victim(&mut random).bytes();
            mutate::mutated(&mut random, image)
        }
    }
}

/// Any image: accepted, damaged, mutated, or chance, in a mix for comparing checkers.
pub fn image(seed: u64) -> Image {
    match Random::new(!seed).below(10) {
        0..=2 => Image {
            bytes: accepted(seed),
            aim: Aim::Accepted,
        },
        3..=7 => damaged(seed),
        _ => Image {
            bytes: mutated(seed),
            aim: Aim::Any,
        },
    }
}

/// The bytes of any image.
pub fn any(seed: u64) -> Vec<u8> {
    image(seed).bytes
}

/// The function and version that a run of an accepted image begins at; none if
/// every version has a promise parameter.
pub fn entry(seed: u64, program: &Program) -> Option<(usize, usize)> {
    run::entry(&mut Random::new(seed), program)
}

/// Argument words for an entry that exists: they match, but for one time in ten.
pub fn words(seed: u64, program: &Program, entry: (usize, usize)) -> Vec<Integer> {
    let mut random = Random::new(seed);
    let version = program.version(entry.0, entry.1);
    let version = version.expect("the entry exists");
    let words = run::matching_words(&mut random, version);
    if random.one_in(10) {
        run::wrong_words(&mut random, words)
    } else {
        words
    }
}

/// The same words, each of 32 bits.
pub fn words_before(seed: u64, program: &Program, entry: (usize, usize)) -> Vec<Integer> {
    let words = words(seed, program, entry).into_iter();
    words.map(before::narrowed).collect()
}

/// The level that a run of an entry that exists states: one that may enter it.
pub fn level(seed: u64, program: &Program, entry: (usize, usize)) -> usize {
    run::level(&mut Random::new(!seed), own_level(program, entry))
}

/// The level of an entry that exists.
fn own_level(program: &Program, entry: (usize, usize)) -> Level {
    let version = program.version(entry.0, entry.1);
    version.expect("the entry exists").level
}

/// The run of an accepted image that begins at its entry with its words, at the
/// lowest level that may enter it; none if there is no entry or the words do not match.
pub fn begun(seed: u64, program: &Program) -> Option<State> {
    let entry = entry(seed, program)?;
    let level = own_level(program, entry).0.into();
    let words = words(seed, program, entry);
    State::begin(program, level, entry.0, entry.1, &words, &[0; BUFFER]).ok()
}

/// A new image of this aim for a run whose image is in force and whose live calls
/// are of these versions. The aim may be missed.
pub fn update(aim: Update, seed: u64, image: &[u8], live: &Live) -> Vec<u8> {
    update::update(&mut Random::new(seed), aim, image, live)
}

/// A list of single steps and budgets, some lent too short a buffer, and in two
/// lists of five changes of the image.
pub fn events(seed: u64) -> Vec<Event> {
    run::event_list(&mut Random::new(seed))
}

/// A list of steps, budgets, changes of the image and steps back, for a run whose start is
/// kept: back where no step lies behind, after changes that are taken and refused, after the
/// end, several in a row, and forward again.
pub fn turns(seed: u64) -> Vec<Turn> {
    turns::list(&mut Random::new(seed))
}

/// A block of stairwells: the reserves of a pool, and what is asked under eight numbers in
/// turn: starts over live runs too, steps, budgets and changes, and each of them refused.
pub fn stairwells(seed: u64) -> Stairwells {
    stairwells::block(&mut Random::new(seed))
}

/// A list of single steps and budgets alone, some lent too short a buffer.
pub fn steps_and_budgets(seed: u64) -> Vec<Event> {
    run::without_changes(&mut Random::new(seed))
}
