//! Ways to fail question 4 by a LEVEL record, and ways to fail question 18.

use super::edit::record;
use super::order::beyond;
use super::Breaker;
use crate::draft::{bytes, Draft, DraftVersion};
use crate::random::Random;
use reference::{Instruction, Level, Record};

/// Ways to fail question 18.
pub const CALLS: [Breaker; 2] = [called_raised, caller_lowered];

/// One of the LEVEL records, by index.
fn level(random: &mut Random, records: &[Record]) -> Option<usize> {
    record(random, records, |r| matches!(r, Record::Level(_)))
}

pub fn unknown(random: &mut Random, draft: &Draft) -> Option<Vec<u8>> {
    let mut records = draft.records();
    let index = level(random, &records)?;
    records[index] = Record::Level(Level(beyond(random, Level::ALL.len())));
    Some(bytes(&records))
}

pub fn lost(random: &mut Random, draft: &Draft) -> Option<Vec<u8>> {
    let mut records = draft.records();
    records.remove(level(random, &records)?);
    Some(bytes(&records))
}

/// The image up to a VERSION, its LEVEL not among it.
pub fn lost_at_the_end(random: &mut Random, draft: &Draft) -> Option<Vec<u8>> {
    let mut records = draft.records();
    records.truncate(level(random, &records)?);
    Some(bytes(&records))
}

pub fn doubled(random: &mut Random, draft: &Draft) -> Option<Vec<u8>> {
    let mut records = draft.records();
    let index = level(random, &records)?;
    let again = Record::Level(random.pick(&Level::ALL));
    records.insert(index, again);
    Some(bytes(&records))
}

/// A LEVEL that stands further behind, or one more that stands anywhere.
pub fn misplaced(random: &mut Random, draft: &Draft) -> Option<Vec<u8>> {
    let mut records = draft.records();
    let index = level(random, &records)?;
    let moved = records[index].clone();
    let at = if random.one_in(2) {
        records.remove(index);
        index + 1 + random.below(records.len() - index)
    } else {
        random.below(records.len() + 1)
    };
    records.insert(at, moved);
    Some(bytes(&records))
}

/// The calls of a draft, each by the indices of its version and of the one that it
/// calls, those of a version to itself left out.
fn calls(draft: &Draft) -> Vec<(usize, usize)> {
    let place = |function: u8, version: u8| {
        let is_it = |v: &DraftVersion| (v.function, v.version) == (function, version);
        draft.versions.iter().position(is_it)
    };
    let mut calls = Vec::new();
    for (caller, version) in draft.versions.iter().enumerate() {
        for instruction in version.blocks.iter().flat_map(|b| &b.instructions) {
            if let Instruction::Call {
                function, version, ..
            } = *instruction
            {
                calls.extend(place(function, version).map(|called| (caller, called)));
            }
        }
    }
    calls.retain(|(caller, called)| caller != called);
    calls
}

/// A level above or below one; none where there is none.
fn level_that(random: &mut Random, passes: impl Fn(Level) -> bool) -> Option<Level> {
    let passing = Level::ALL.into_iter().filter(|&level| passes(level));
    random.choose(&passing.collect::<Vec<Level>>())
}

fn called_raised(random: &mut Random, draft: &Draft) -> Option<Vec<u8>> {
    let mut draft = draft.clone();
    let (caller, called) = random.choose(&calls(&draft))?;
    let own = draft.versions[caller].level;
    draft.versions[called].level = level_that(random, |level| level > own)?;
    Some(draft.bytes())
}

fn caller_lowered(random: &mut Random, draft: &Draft) -> Option<Vec<u8>> {
    let mut draft = draft.clone();
    let (caller, called) = random.choose(&calls(&draft))?;
    let named = draft.versions[called].level;
    draft.versions[caller].level = level_that(random, |level| level < named)?;
    Some(draft.bytes())
}
