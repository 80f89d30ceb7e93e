//! What changes of the image come to: by the end of the run that they come after,
//! and by their order in a run.

use generator::Tally;
use reference::change::parts;
use reference::questions::QUESTIONS;
use reference::record::HEAD;
use reference::Refusal;

/// What a change may come to, beside a refusal by a question to the new image.
const SAME: &str = "taken, the same bytes";
const LIVE: &str = "taken, other bytes while a call is live";
const NO_CALL: &str = "taken, other bytes while no call is live";
const DIFFERS: &str = "refused by 15, differs";
const MISSING: &str = "refused by 15, missing";
/// Among those that differ: in the level of a version alone.
const LEVEL: &str = "refused by 15, by a level alone";

/// The fewest changes that come to one of these, at any time.
const FEWEST: [(&[&str], usize); 4] = [
    (&[SAME, LIVE, NO_CALL], 60_000),
    (&[LIVE], 20_000),
    (&[DIFFERS], 5_000),
    (&[MISSING], 4_000),
];

/// The fewest changes before the end of a run and after each end, for all that a
/// change may come to then. All ends but DONE keep the live calls.
const FEWEST_BEFORE: [(&str, usize); 3] = [(LIVE, 15_000), (DIFFERS, 5_000), (MISSING, 4_000)];
const FEWEST_AFTER: [(&str, &[(&str, usize)]); 6] = [
    ("Integer", &[(NO_CALL, 12_000)]),
    ("Vector", &[(NO_CALL, 7_000)]),
    ("Undef", &[(LIVE, 3_000), (DIFFERS, 1_000), (MISSING, 800)]),
    ("Deep", &[(LIVE, 1_000), (DIFFERS, 350), (MISSING, 300)]),
    ("Vectors", &[(LIVE, 300), (DIFFERS, 100), (MISSING, 60)]),
    ("Promises", &[(LIVE, 240), (DIFFERS, 75), (MISSING, 60)]),
];

/// What the changes of one run may come to together.
const TWICE: &str = "two changes taken";
const BETWEEN: &str = "a change refused between two taken";

/// The fewest changes that 15 refuses for the level of a version alone.
const FEWEST_LEVELS: usize = 500;

/// The fewest runs that come to it, and that do so before their end.
const FEWEST_RUNS: [(&str, usize, usize); 2] = [(TWICE, 10_000, 5_000), (BETWEEN, 5_000, 2_500)];

/// What a change comes to.
pub fn outcome(answer: Result<(), Refusal>, old: &[u8], new: &[u8], live: bool) -> String {
    match answer {
        Ok(()) if new == old => SAME.to_string(),
        Ok(()) if live => LIVE.to_string(),
        Ok(()) => NO_CALL.to_string(),
        Err(Refusal { number: 15, offset }) if offset == new.len() => MISSING.to_string(),
        Err(Refusal { number: 15, .. }) => DIFFERS.to_string(),
        Err(Refusal { number, .. }) => format!("refused by {number}"),
    }
}

/// Is a change refused by 15 for a version whose level alone differs?
fn by_level(refusal: Refusal, old: &[u8], new: &[u8]) -> bool {
    let (before, after) = (parts(old), parts(new));
    let there = after.iter().find(|part| part.offset == refusal.offset);
    let had = there.and_then(|part| before.iter().find(|had| had.numbers == part.numbers));
    let Some((had, has)) = had.zip(there) else {
        return false;
    };
    let level = usize::from(had.bytes[0]) + HEAD;
    let others = |bytes: &[u8]| [&bytes[..level], &bytes[level + 1..]].concat();
    had.bytes.len() == has.bytes.len() && others(had.bytes) == others(has.bytes)
}

/// Meets a change that 15 refuses for the level of a version alone.
pub fn meet_level(answer: Result<(), Refusal>, old: &[u8], new: &[u8], met: &mut Tally<String>) {
    if let Err(refusal @ Refusal { number: 15, .. }) = answer {
        if by_level(refusal, old, new) {
            met.meet(LEVEL.to_string());
        }
    }
}

/// A change that comes before the end of a run, or after the end of this name.
pub fn name(end: Option<&str>, outcome: &str) -> String {
    match end {
        None => format!("change before: {outcome}"),
        Some(end) => format!("change after {end}: {outcome}"),
    }
}

/// The changes of one run in order: whether each is taken.
#[derive(Default)]
pub struct History {
    all: Vec<bool>,
    /// Those before the end of the run.
    before: Vec<bool>,
}

impl History {
    /// Adds a change.
    pub fn add(&mut self, taken: bool, ended: bool) {
        self.all.push(taken);
        if !ended {
            self.before.push(taken);
        }
    }

    /// Meets what the changes come to together.
    pub fn meet(&self, met: &mut Tally<String>) {
        for (changes, when) in [(&self.all, ""), (&self.before, " before its end")] {
            if changes.iter().filter(|&&taken| taken).count() >= 2 {
                met.meet(format!("run{when}: {TWICE}"));
            }
            if refused_between(changes) {
                met.meet(format!("run{when}: {BETWEEN}"));
            }
        }
    }
}

/// Is a change refused between two that are taken?
fn refused_between(changes: &[bool]) -> bool {
    let taken = |&taken: &bool| taken;
    let (first, last) = (
        changes.iter().position(taken),
        changes.iter().rposition(taken),
    );
    let between = first.zip(last).map(|(first, last)| &changes[first..last]);
    between.is_some_and(|between| between.contains(&false))
}

/// Asserts that each thing that may be met is met often enough, and that 15
/// refuses nothing after DONE.
#[track_caller]
pub fn assert_changes(met: &Tally<String>) {
    let ends = FEWEST_AFTER.map(|(end, _)| Some(end));
    let times = ends.iter().copied().chain([None]);
    for (outcomes, least) in FEWEST {
        let each = outcomes.iter().flat_map(|outcome| {
            let names = times.clone().map(|end| name(end, outcome));
            names.map(|name| met.count(&name))
        });
        let count: usize = each.sum();
        assert!(count >= least, "{outcomes:?}: {count}");
    }
    for (outcome, least) in FEWEST_BEFORE {
        assert_count(met, name(None, outcome), least);
    }
    for (end, fewest) in FEWEST_AFTER {
        for &(outcome, least) in fewest {
            assert_count(met, name(Some(end), outcome), least);
        }
    }
    assert_count(met, LEVEL.to_string(), FEWEST_LEVELS);
    for number in QUESTIONS {
        assert_count(met, name(None, &format!("refused by {number}")), 1);
    }
    for end in ["Integer", "Vector"] {
        for outcome in [DIFFERS, MISSING] {
            let name = name(Some(end), outcome);
            assert_eq!(met.count(&name), 0, "{name}");
        }
    }
    for (what, least, least_before) in FEWEST_RUNS {
        assert_count(met, format!("run: {what}"), least);
        assert_count(met, format!("run before its end: {what}"), least_before);
    }
}

/// Asserts that a thing is met at least so often.
#[track_caller]
fn assert_count(met: &Tally<String>, thing: String, least: usize) {
    let count = met.count(&thing);
    assert!(count >= least, "{thing}: {count}, expected {least}");
}
