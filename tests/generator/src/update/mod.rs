//! New images for a run that goes on: the image in force with some of it changed.

mod edits;

use crate::damage::damage;
use crate::draft::{Draft, DraftVersion};
use crate::random::Random;
use crate::theme::{self, Theme};
use reference::bounds::{FUNCTIONS, MAX_IMAGE, VERSIONS, VERSIONS_EACH};
use reference::questions::QUESTIONS;
use reference::{Instruction, Program};
use std::collections::BTreeSet;

/// How a new image is to differ from the one in force.
#[derive(Clone, Copy, PartialEq, Eq, PartialOrd, Ord, Debug)]
pub enum Update {
    /// Not at all.
    Same,
    /// In versions without a live call: changed, added or removed.
    Others,
    /// In a version with a live call.
    Differs,
    /// It lacks a version with a live call.
    Lacks,
    /// It is refused by its own questions.
    Refused,
    /// It is another program.
    Another,
}

impl Update {
    /// All of them.
    pub const ALL: [Update; 6] = [
        Update::Same,
        Update::Others,
        Update::Differs,
        Update::Lacks,
        Update::Refused,
        Update::Another,
    ];

    /// Any of them, those in versions without a live call most often.
    pub fn any(random: &mut Random) -> Update {
        random.weighted(&[
            (8, Update::Same),
            (50, Update::Others),
            (14, Update::Differs),
            (14, Update::Lacks),
            (8, Update::Refused),
            (6, Update::Another),
        ])
    }
}

/// The numbers of versions with a live call.
pub type Live = BTreeSet<(u8, u8)>;

/// How often a change is tried anew where what it makes is not accepted.
const TRIES: usize = 8;

/// A new image of this aim for an accepted one; the aim may be missed.
pub fn update(random: &mut Random, aim: Update, image: &[u8], live: &Live) -> Vec<u8> {
    let Ok(program) = Program::accept(image) else {
        return image.to_vec();
    };
    let draft = Draft::of(&program);
    match aim {
        Update::Same => image.to_vec(),
        Update::Others => accepted(random, &draft, |random, draft| others(random, draft, live)),
        Update::Differs => accepted(random, &draft, |random, draft| {
            edit_one(random, draft, |version| live.contains(&numbers(version)))
        }),
        Update::Lacks => lacking(random, &draft, live),
        Update::Refused => loop {
            let question = random.pick(&QUESTIONS);
            if let Some(bytes) = damage(random, question, &draft) {
                return bytes;
            }
        },
        Update::Another => theme::program(random, Theme::Small).bytes(),
    }
}

/// A version's two numbers.
fn numbers(version: &DraftVersion) -> (u8, u8) {
    (version.function, version.version)
}

/// The draft after a change that keeps it accepted; as it was where none is found.
fn accepted(
    random: &mut Random,
    draft: &Draft,
    change: impl Fn(&mut Random, &mut Draft) -> Option<()>,
) -> Vec<u8> {
    for _ in 0..TRIES {
        let mut changed = draft.clone();
        if change(random, &mut changed).is_some() {
            let bytes = changed.bytes();
            if Program::accept(&bytes).is_ok() {
                return bytes;
            }
        }
    }
    draft.bytes()
}

/// Changes versions without a live call: some are edited, mostly those that the
/// live ones call, some added or removed.
fn others(random: &mut Random, draft: &mut Draft, live: &Live) -> Option<()> {
    let called = called(draft, live);
    let mut changed = None;
    for _ in 0..1 + random.below(3) {
        let one = match random.below(10) {
            0 | 1 => add(random, draft),
            2 => remove(random, draft, |version| !live.contains(&numbers(version))),
            3 | 4 => edit_one(random, draft, |version| !live.contains(&numbers(version))),
            _ => edit_one(random, draft, |version| called.contains(&numbers(version))),
        };
        changed = changed.or(one);
    }
    changed
}

/// The versions without a live call that those with one may enter.
fn called(draft: &Draft, live: &Live) -> Live {
    let versions = draft.versions.iter();
    let callers = versions.clone().filter(|v| live.contains(&numbers(v)));
    let blocks = callers.flat_map(|version| &version.blocks);
    let mut called = Live::new();
    for instruction in blocks.flat_map(|block| &block.instructions) {
        match *instruction {
            Instruction::Call {
                function, version, ..
            } => drop(called.insert((function, version))),
            Instruction::Dispatch { function, .. } => {
                let own = versions.clone().filter(|v| v.function == function);
                called.extend(own.map(numbers));
            }
            _ => {}
        }
    }
    &called - live
}

/// Edits one of the versions that pass.
fn edit_one(
    random: &mut Random,
    draft: &mut Draft,
    passes: impl Fn(&DraftVersion) -> bool,
) -> Option<()> {
    let passing = draft.versions.iter_mut().filter(|version| passes(version));
    let mut passing: Vec<&mut DraftVersion> = passing.collect();
    if passing.is_empty() {
        return None;
    }
    let index = random.below(passing.len());
    edits::edit(random, passing[index])
}

/// Adds a version with the body of another: behind the versions of a function
/// that may have one more, or of a new function.
fn add(random: &mut Random, draft: &mut Draft) -> Option<()> {
    let last = draft.versions.last()?.function;
    let function = random.below(usize::from(last) + 2) as u8;
    let own = draft.versions.iter().filter(|v| v.function == function);
    let number = own.count();
    let room = draft.versions.len() < VERSIONS && usize::from(function) < FUNCTIONS;
    if number == VERSIONS_EACH || !room {
        return None;
    }
    let body = random.pick(&draft.versions);
    let before = draft.versions.iter().filter(|v| v.function <= function);
    let place = before.count();
    let added = DraftVersion {
        function,
        version: number as u8,
        ..body
    };
    draft.versions.insert(place, added);
    (draft.bytes().len() <= MAX_IMAGE).then_some(())
}

/// Removes one of the versions that pass, the last one of its function.
fn remove(
    random: &mut Random,
    draft: &mut Draft,
    passes: impl Fn(&DraftVersion) -> bool,
) -> Option<()> {
    let count = draft.versions.len();
    let removable = (1..count).filter(|&index| {
        let version = &draft.versions[index];
        let next = draft.versions.get(index + 1);
        let last = next.is_none_or(|next| next.function != version.function);
        let gap = version.version == 0 && index + 1 < count;
        last && !gap && passes(version)
    });
    let removable: Vec<usize> = removable.collect();
    draft.versions.remove(random.choose(&removable)?);
    Some(())
}

/// The draft without a version that has a live call: that one alone, or with all
/// behind it; mostly the last such version, which the others seldom call.
fn lacking(random: &mut Random, draft: &Draft, live: &Live) -> Vec<u8> {
    let places =
        (1..draft.versions.len()).filter(|&at| live.contains(&numbers(&draft.versions[at])));
    let places: Vec<usize> = places.collect();
    let Some(&last) = places.last() else {
        return draft.bytes();
    };
    let mut changed = draft.clone();
    if random.percent(20) {
        edit_one(random, &mut changed, |version| {
            live.contains(&numbers(version))
        });
    }
    let alone = remove(random, &mut changed, |version| {
        numbers(version) == numbers(&draft.versions[last])
    });
    if alone.is_none() {
        let from = if random.one_in(6) {
            random.pick(&places)
        } else {
            last
        };
        changed.versions.truncate(from);
    }
    changed.bytes()
}
