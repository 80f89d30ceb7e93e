//! Ways to fail question 1.

use super::Breaker;
use crate::draft::Draft;
use crate::random::Random;
use reference::bounds::MAX_IMAGE;

/// Ways to fail question 1.
pub const BREAKERS: [Breaker; 3] = [empty, one_byte_too_many, far_too_many];

fn empty(_: &mut Random, _: &Draft) -> Option<Vec<u8>> {
    Some(vec![])
}

fn one_byte_too_many(_: &mut Random, draft: &Draft) -> Option<Vec<u8>> {
    let mut bytes = draft.bytes();
    bytes.resize(MAX_IMAGE + 1, 0);
    Some(bytes)
}

fn far_too_many(random: &mut Random, draft: &Draft) -> Option<Vec<u8>> {
    let bytes = draft.bytes();
    let length = MAX_IMAGE + 2 + random.below(MAX_IMAGE);
    Some(bytes.into_iter().cycle().take(length).collect())
}
