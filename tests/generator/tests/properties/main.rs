//! What generated images, words and event lists are like, over many seeds.

mod accepted;
mod before;
mod broken;
mod damaged;
mod dependence;
mod division;
mod ends;
mod events;
mod joins;
mod levels;
mod mends;
mod moves;
mod refill;
mod round_trip;
mod runs;
mod searches;
mod skips;
mod stairwells;
mod turns;
mod updates;

use reference::watched::Watched;
use reference::{Program, State};

/// The highest level that a run can state.
const HIGHEST: usize = 2;

/// A begun run under the monitor, at the lowest level that may enter it.
#[track_caller]
fn watched(program: &Program, state: State, origin: &str) -> Watched {
    let entry = state.version(program, 0).expect("a call lives");
    Watched::new(program, state, entry.level.0.into(), origin)
}
