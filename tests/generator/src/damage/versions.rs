//! Ways to fail question 5.

use super::Breaker;
use crate::draft::{Draft, DraftVersion};
use crate::random::Random;
use reference::bounds::{FUNCTIONS, VERSIONS_EACH};

/// Ways to fail question 5.
pub const BREAKERS: [Breaker; 6] = [
    other_numbers,
    near_numbers,
    all_functions_later,
    versions_swapped,
    version_doubled,
    version_lost,
];

/// The two numbers of a version.
fn numbers(version: &mut DraftVersion) -> (&mut u8, &mut u8) {
    (&mut version.function, &mut version.version)
}

fn other_numbers(random: &mut Random, draft: &Draft) -> Option<Vec<u8>> {
    let mut draft = draft.clone();
    let index = random.below(draft.versions.len());
    let (function, version) = numbers(&mut draft.versions[index]);
    *function = random.below(FUNCTIONS) as u8;
    *version = random.below(VERSIONS_EACH) as u8;
    Some(draft.bytes())
}

fn near_numbers(random: &mut Random, draft: &Draft) -> Option<Vec<u8>> {
    let mut draft = draft.clone();
    let index = random.below(draft.versions.len());
    let (function, version) = numbers(&mut draft.versions[index]);
    let changed = random.pick(&[(0, 1), (1, 0), (1, 1), (2, 0)]);
    *function = (*function + changed.0) % FUNCTIONS as u8;
    *version = (*version + changed.1) % VERSIONS_EACH as u8;
    Some(draft.bytes())
}

fn all_functions_later(_: &mut Random, draft: &Draft) -> Option<Vec<u8>> {
    let mut draft = draft.clone();
    for version in &mut draft.versions {
        version.function = (version.function + 1) % FUNCTIONS as u8;
    }
    Some(draft.bytes())
}

fn versions_swapped(random: &mut Random, draft: &Draft) -> Option<Vec<u8>> {
    let mut draft = draft.clone();
    let count = draft.versions.len();
    if count < 2 {
        return None;
    }
    let first = random.below(count - 1);
    draft.versions.swap(first, first + 1);
    Some(draft.bytes())
}

fn version_doubled(random: &mut Random, draft: &Draft) -> Option<Vec<u8>> {
    let mut draft = draft.clone();
    let index = random.below(draft.versions.len());
    let again = draft.versions[index].clone();
    draft.versions.insert(index, again);
    Some(draft.bytes())
}

fn version_lost(random: &mut Random, draft: &Draft) -> Option<Vec<u8>> {
    let mut draft = draft.clone();
    if draft.versions.len() < 2 {
        return None;
    }
    // The last may be missing without a gap.
    draft
        .versions
        .remove(random.below(draft.versions.len() - 1));
    Some(draft.bytes())
}
