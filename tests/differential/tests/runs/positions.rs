//! Where runs stand: at instructions and at the ends of blocks, before and after the
//! end of a run.

use differential::engine;
use generator::Tally;
use library::Run;
use reference::position::Position;
use reference::watched::Watched;

/// The fewest states before an end that stand at an instruction and at the end of a
/// block, of a body and of a promise each.
const FEWEST_INSTRUCTIONS: usize = 400_000;
const FEWEST_BLOCK_ENDS: usize = 70_000;

/// The fewest states after an end that stand at the instruction which made it, of a
/// body and of a promise each.
const FEWEST_AFTER: [(&str, usize); 4] = [
    ("Undef", 7_000),
    ("Deep", 1_500),
    ("Vectors", 25),
    ("Promises", 25),
];

/// The ends that leave a run nowhere, and the fewest states after them.
const ENDS_NOWHERE: [&str; 2] = ["Integer", "Vector"];
const FEWEST_NOWHERE: usize = 100_000;

/// Where a state stands, in words.
const NOWHERE: &str = "nowhere";
const INSTRUCTION: &str = "at an instruction";
const BLOCK_END: &str = "at a block end";

/// Asserts that both say the same of where a state stands, before the end of its run
/// or after the end of this name; it is met.
#[track_caller]
pub fn compare(
    (reference, proved): (&Watched, &Run),
    end: Option<&str>,
    origin: &str,
    met: &mut Tally<String>,
) {
    let expected = reference.position();
    let found = engine::position(proved);
    assert!(
        expected == found,
        "{origin}, step {}: expected {expected:?}, the proved engine stands at {found:?}\n{}",
        reference.tried(),
        text::listing(proved.image())
    );
    met.meet(match expected {
        None => name(end, NOWHERE, false),
        Some(Position { at_end, block, .. }) => {
            name(end, if at_end { BLOCK_END } else { INSTRUCTION }, block > 0)
        }
    });
}

/// The name of a place, in a body or in a promise block.
fn name(end: Option<&str>, stands: &str, promised: bool) -> String {
    let after = end.map_or(String::new(), |end| format!(" after {end}"));
    let block = if promised { " of a promise" } else { "" };
    format!("position{after}: {stands}{block}")
}

/// Asserts that each place is met often enough, and that no run stands anywhere else.
#[track_caller]
pub fn assert_positions(met: &Tally<String>) {
    for promised in [false, true] {
        assert_count(met, name(None, INSTRUCTION, promised), FEWEST_INSTRUCTIONS);
        assert_count(met, name(None, BLOCK_END, promised), FEWEST_BLOCK_ENDS);
    }
    assert_never(met, name(None, NOWHERE, false));
    for (end, least) in FEWEST_AFTER {
        for promised in [false, true] {
            assert_count(met, name(Some(end), INSTRUCTION, promised), least);
            assert_never(met, name(Some(end), BLOCK_END, promised));
        }
        assert_never(met, name(Some(end), NOWHERE, false));
    }
    for end in ENDS_NOWHERE {
        assert_count(met, name(Some(end), NOWHERE, false), FEWEST_NOWHERE);
        for promised in [false, true] {
            assert_never(met, name(Some(end), INSTRUCTION, promised));
            assert_never(met, name(Some(end), BLOCK_END, promised));
        }
    }
}

/// Asserts that a place is met at least so often.
#[track_caller]
fn assert_count(met: &Tally<String>, thing: String, least: usize) {
    let count = met.count(&thing);
    assert!(count >= least, "{thing}: {count}, expected {least}");
}

/// Asserts that a place is not met.
#[track_caller]
fn assert_never(met: &Tally<String>, thing: String) {
    assert_eq!(met.count(&thing), 0, "{thing}");
}
