//! Runs and the bounds of their entries. That none takes more steps is asserted where
//! steps are counted; here it is seen that runs are held to bounds, and meet them.

use differential::paced::Paced;
use generator::Tally;

/// The fewest runs that are held to a bound when they end, and that meet it exactly.
const FEWEST_HELD: usize = 20_000;
const FEWEST_EXACT: usize = 1_000;

/// What is met of a run when it ends.
const HELD: &str = "bound: held to it";
const FREE: &str = "bound: none is given, or it is large, or a change was taken";
const EXACT: &str = "bound: met exactly";

/// Meets what a run that has ended had of a bound.
pub fn meet_bound(run: &Paced, met: &mut Tally<String>) {
    let held = match run.met_exactly() {
        Some(_) => HELD,
        None => FREE,
    };
    met.meet(held.to_string());
    if run.met_exactly() == Some(true) {
        met.meet(EXACT.to_string());
    }
}

/// Asserts that enough runs are held to a bound, and that enough meet it.
#[track_caller]
pub fn assert_bounds(met: &Tally<String>) {
    for (name, fewest) in [(HELD, FEWEST_HELD), (EXACT, FEWEST_EXACT)] {
        let count = met.count(name);
        assert!(count >= fewest, "{name}: {count}");
    }
}
