//! Pairs of images that are to be joined, with a buffer for each: most go together;
//! some are refused by a question to either image, and some have 32 functions, 64
//! versions or 32,768 bytes together, or more.

use crate::draft::{Draft, DraftBlock, DraftVersion};
use crate::padding::pad_to;
use crate::random::Random;
use crate::theme::{self, Theme};
use crate::{damaged, mutated};
use reference::bounds::{FUNCTIONS, MAX_IMAGE, VERSIONS};
use reference::{Instruction, Level, Mark, Type};

/// Two images that are to be joined.
#[derive(Clone, PartialEq, Eq, Debug)]
pub struct Join {
    /// The first image.
    pub first: Vec<u8>,
    /// The second image.
    pub second: Vec<u8>,
    /// How many places the lent buffer has.
    pub places: usize,
}

/// Two images, with a buffer.
pub fn any(random: &mut Random) -> Join {
    let (first, second) = match random.below(1000) {
        0..=69 => (broken(random), program(random).bytes()),
        70..=99 => (broken(random), broken(random)),
        100..=179 => (program(random).bytes(), broken(random)),
        180..=249 => near(random, FUNCTIONS, grow_functions),
        250..=319 => near(random, VERSIONS, grow_versions),
        320..=344 => near_the_bytes(random),
        345..=379 => itself(random),
        _ => (program(random).bytes(), program(random).bytes()),
    };
    let places = places(random, first.len() + second.len());
    Join {
        first,
        second,
        places,
    }
}

/// How many places the buffer has for a joined image of this length.
fn places(random: &mut Random, length: usize) -> usize {
    let more = length + 1 + random.below(40);
    let fewer = random.below(length + 1);
    let short = length.saturating_sub(1);
    random.weighted(&[
        (40, length),
        (35, more),
        (10, MAX_IMAGE.max(length)),
        (5, MAX_IMAGE),
        (6, short),
        (3, fewer),
        (1, 0),
    ])
}

/// An accepted program, mostly a small one.
pub fn program(random: &mut Random) -> Draft {
    let theme = match random.below(10) {
        0 => Theme::any(random),
        1 | 2 => Theme::Medium,
        3 => Theme::Single,
        _ => Theme::Small,
    };
    theme::program(random, theme)
}

/// An image that a question should refuse.
fn broken(random: &mut Random) -> Vec<u8> {
    let seed = random.number();
    match random.below(4) {
        0 => mutated(seed),
        _ => damaged(seed).bytes,
    }
}

/// An image and itself.
fn itself(random: &mut Random) -> (Vec<u8>, Vec<u8>) {
    let image = program(random).bytes();
    (image.clone(), image)
}

/// What brings a draft to a number of functions or of versions, if it has fewer.
type Growing = fn(&mut Random, &mut Draft, usize);

/// Two images that together have as many functions or versions as the bound allows, or
/// nearly so many, or some more.
fn near(random: &mut Random, bound: usize, grow: Growing) -> (Vec<u8>, Vec<u8>) {
    let some = random.below(bound);
    let more = random.pick(&[0, 0, 1, 1, 2, some]);
    let together = bound + more - random.below(2);
    let first = 1 + random.below(bound - 1);
    let mut parts = [first, together.saturating_sub(first).clamp(1, bound)].into_iter();
    let mut part = || {
        let mut draft = theme::program(random, Theme::Small);
        grow(random, &mut draft, parts.next().unwrap_or(1));
        draft.bytes()
    };
    (part(), part())
}

/// Adds functions of one version until the draft has so many.
fn grow_functions(random: &mut Random, draft: &mut Draft, functions: usize) {
    while let Some(last) = draft.versions.last().map(|last| last.function) {
        if usize::from(last) + 1 >= functions {
            return;
        }
        add_link(random, draft, (last + 1, 0));
    }
}

/// Adds versions, four of each function, until the draft has so many.
fn grow_versions(random: &mut Random, draft: &mut Draft, versions: usize) {
    while draft.versions.len() < versions {
        let numbers = draft.next_numbers();
        if usize::from(numbers.0) >= FUNCTIONS {
            return;
        }
        add_link(random, draft, numbers);
    }
}

/// Adds a version that takes an integer and gives what the last version gives, by CALL or
/// DISPATCH, where that one does as much; else it gives the integer.
fn add_link(random: &mut Random, draft: &mut Draft, (function, version): (u8, u8)) {
    let last = draft.versions.last();
    let called = last.filter(|last| is_link(last));
    let own = called.map_or(Level::PORTAL, |last| last.level);
    let raised = Level(own.0 + u8::from(own < Level::FACTORY && random.one_in(8)));
    let instruction = called.map(|last| link(random, last));
    draft.versions.push(DraftVersion {
        function,
        version,
        parameters: 1,
        returns: Type::INTEGER,
        types: vec![Type::INTEGER],
        level: raised,
        blocks: vec![DraftBlock {
            mark: Mark::QUIET,
            result: 0,
            instructions: instruction.into_iter().collect(),
        }],
    });
}

/// Does the version take an integer and give one, as a link does?
fn is_link(version: &DraftVersion) -> bool {
    let signature = (version.parameters, version.returns, &version.types[..]);
    let quiet = version.blocks.iter().all(|block| block.mark == Mark::QUIET);
    signature == (1, Type::INTEGER, &[Type::INTEGER]) && quiet
}

/// A call of a link, or a search among the versions of its function.
fn link(random: &mut Random, called: &DraftVersion) -> Instruction {
    let function = called.function;
    if random.one_in(2) {
        return Instruction::Call {
            d: 0,
            function,
            version: called.version,
            arguments: vec![0],
        };
    }
    Instruction::Dispatch {
        d: 0,
        function,
        mark: Mark::QUIET,
        returns: Type::INTEGER,
        arguments: vec![(Type::INTEGER, 0)],
    }
}

/// Two images of 32,768 bytes together, or of one more, or of some more.
fn near_the_bytes(random: &mut Random) -> (Vec<u8>, Vec<u8>) {
    let some = random.below(3000);
    let together = MAX_IMAGE + random.pick(&[0, 1, 1, some]);
    let least = 3000;
    let length = least + random.below(MAX_IMAGE - 2 * least);
    let mut padded = |length| {
        let mut draft = theme::program(random, Theme::Small);
        pad_to(&mut draft, length);
        draft.bytes()
    };
    let first = padded(length);
    let left = together - first.len();
    (first, padded(left))
}
