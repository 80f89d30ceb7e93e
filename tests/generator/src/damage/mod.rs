//! Accepted images broken in one place, aimed at one question.

pub mod edit;
mod effect;
mod existence;
mod fit;
mod flow;
mod framing;
mod levels;
mod order;
mod places;
mod size;
mod skips;
mod versions;

use crate::draft::Draft;
use crate::random::Random;

/// One way to break an image; none if the image offers no place for it.
type Breaker = fn(&mut Random, &Draft) -> Option<Vec<u8>>;

/// The ways to break an image so that a question of 1 to 10, 14 or 18 refuses it.
fn breakers(question: u8) -> &'static [Breaker] {
    match question {
        1 => &size::BREAKERS,
        2 => &framing::HEADS,
        3 => &framing::KINDS,
        4 => &order::BREAKERS,
        5 => &versions::BREAKERS,
        6 => &places::BREAKERS,
        7 => &existence::BREAKERS,
        14 => &skips::BREAKERS,
        8 => &fit::BREAKERS,
        18 => &levels::CALLS,
        9 => &effect::BREAKERS,
        _ => &flow::BREAKERS,
    }
}

/// The bytes of a draft broken so that a question of 1 to 10, 14 or 18 should refuse it.
pub fn damage(random: &mut Random, question: u8, draft: &Draft) -> Option<Vec<u8>> {
    let breakers = random.shuffled(breakers(question).to_vec());
    breakers.iter().find_map(|breaker| breaker(random, draft))
}
