//! Runs of the proved engine and of the reference, under the same lists of steps,
//! budgets and changes of the image: every answer, step count, place of the buffer
//! and state agrees, and no run takes more steps than the bound of its entry.

mod begin;
mod bounds;
mod changes;
mod events;
mod pair;
mod positions;
mod searches;

use begin::{
    assert_same_at_higher_levels, begin, begin_wrongly, begun_at, level_of, refused_at, Start,
};
use bounds::{assert_bounds, meet_bound};
use changes::assert_changes;
use differential::parallel::in_parallel;
use generator::{accepted, damaged, entry, level, words, Random, Tally};
use pair::Pair;
use positions::assert_positions;
use reference::bounds::{BUFFER, ITEMS};
use reference::questions::QUESTIONS;
use reference::watched::{Watched, ENDINGS};
use reference::{Integer, Level, Program, Refusal};
use searches::assert_searches;

/// How many programs are generated; the fewest that begin a run, and the
/// fewest steps that they take together.
const PROGRAMS: u64 = 56_000;
const FEWEST_RUNS: usize = 50_000;
const FEWEST_STEPS: usize = 3_000_000;

/// The fewest runs in which a SKIP is executed, and of these the fewest in which
/// one skips, and the fewest in which one does not.
const FEWEST_SKIPS: usize = 20_000;
const FEWEST_EACH_WAY: usize = 15_000;

/// The fewest head words that are refused, and would not be by their low 32 bits.
const FEWEST_HEADS: usize = 500;

/// The fewest runs for each level of an entry and each stated one.
const FEWEST_EACH_LEVEL: usize = 500;

/// How many damaged images no run may begin of.
const DAMAGED: u64 = 6_000;

/// Runs a program under its list of events; how many steps were tried.
fn run(seed: u64, met: &mut Tally<String>) -> usize {
    let origin = format!("seed {seed}");
    let image = accepted(seed);
    let program = Program::accept(&image);
    let checked = program.as_ref().expect("an accepted image");
    let Some(entry) = entry(seed, checked) else {
        met.meet("no entry".to_string());
        return 0;
    };
    let start = Start {
        image: &image,
        level: level(seed, checked, entry),
        entry,
        words: words(seed, checked, entry),
        places: BUFFER,
    };
    begin_wrongly(seed, &start, &program, met);
    let (state, proved) = match begin(&start, &program, &origin) {
        Ok(begun) => begun,
        Err(refusal) => {
            meet_refusal(refusal, &start.words, met);
            return 0;
        }
    };
    met.meet("begun".to_string());
    met.meet(begun_at(level_of(&program, entry), start.level));
    assert_same_at_higher_levels(&start, &proved, &origin);
    let reference = Watched::new(checked, state, start.level, &origin);
    let mut pair = Pair::new(&image, reference, proved);
    pair.assert_same_state(&origin);
    pair.compare_standing(&origin, met);
    pair.act_all(seed, &origin, met);
    let ending = pair.reference().ending();
    met.meet(ending.unwrap_or("goes on").to_string());
    meet_skips(pair.reference(), met);
    pair.changes().meet(met);
    meet_bound(pair.proved(), met);
    pair.reference().tried()
}

/// Meets the refusal of a run that begins with these words.
fn meet_refusal(refusal: Refusal, words: &[Integer], met: &mut Tally<String>) {
    met.meet(format!("begin refused by {}", refusal.number));
    if words.first().is_some_and(|&head| is_head_in_32_bits(head)) {
        met.meet("a head word by its low 32 bits alone".to_string());
    }
}

/// Is a word that is no head word one by its low 32 bits?
fn is_head_in_32_bits(word: Integer) -> bool {
    let low = Integer::from(word as i32);
    low != word && (-1..=ITEMS as Integer).contains(&low)
}

/// Meets what a run did with SKIPs.
fn meet_skips(run: &Watched, met: &mut Tally<String>) {
    let (skipped, not_skipped) = (run.skipped() > 0, run.not_skipped() > 0);
    for (condition, name) in [
        (skipped || not_skipped, "a SKIP runs"),
        (skipped, "a SKIP skips"),
        (not_skipped, "a SKIP does not skip"),
    ] {
        if condition {
            met.meet(name.to_string());
        }
    }
}

/// Asserts that each thing was met.
#[track_caller]
fn assert_met(met: &Tally<String>, things: impl IntoIterator<Item = String>) {
    for thing in things {
        assert!(met.count(&thing) > 0, "never met: {thing}");
    }
}

#[test]
fn runs_agree_under_every_list_of_events() {
    if cfg!(feature = "stand_in") {
        println!("The reference stands in for the proved engine.");
    }
    let (met, steps) = in_parallel(PROGRAMS, run);
    println!("{PROGRAMS} programs, {steps} steps tried before an end\n{met}");
    assert!(met.count("begun") >= FEWEST_RUNS, "too few runs");
    assert!(steps >= FEWEST_STEPS, "{steps} steps");
    assert_eq!(met.count("goes on"), 0, "a run was not brought to its end");
    assert!(met.count("a SKIP runs") >= FEWEST_SKIPS, "too few SKIPs");
    for way in ["a SKIP skips", "a SKIP does not skip"] {
        assert!(met.count(way) >= FEWEST_EACH_WAY, "too seldom: {way}");
    }
    let heads = met.count("a head word by its low 32 bits alone");
    assert!(heads >= FEWEST_HEADS, "{heads} head words beyond 32 bits");
    assert_met(&met, ENDINGS.map(String::from));
    assert_met(
        &met,
        [11, 19, 12, 13].map(|n| format!("begin refused by {n}")),
    );
    assert_levels(&met);
    let ends = ["Integer", "Vector", "Undef", "Deep", "Vectors", "Promises"];
    for end in ends {
        for when in ["before", "after the end"] {
            assert_met(&met, [format!("step {when}: {end}")]);
            assert_met(&met, [format!("large budget {when}: {end}")]);
        }
        for size in ["empty", "small", "greatest"] {
            assert_met(&met, [format!("{size} budget after the end: {end}")]);
        }
        assert_met(&met, [format!("greatest budget before: {end}")]);
    }
    for size in ["empty", "small", "large"] {
        assert_met(&met, [format!("{size} budget before: refused by 13")]);
        assert_met(
            &met,
            [format!("{size} budget after the end: refused by 13")],
        );
    }
    assert_met(&met, ["step before: GoesOn".to_string()]);
    assert_met(
        &met,
        ["empty", "small"].map(|s| format!("{s} budget before: Steps")),
    );
    assert_met(
        &met,
        (0..=BUFFER + 1).map(|n| format!("buffer of {n} places")),
    );
    assert_eq!(met.count("UNDEF, without a cause"), 0);
    assert_changes(&met);
    assert_searches(&met);
    assert_positions(&met);
    assert_bounds(&met);
}

/// Asserts that runs began at each level of an entry and each stated level at or above
/// it, and were refused by 19 at each below it.
fn assert_levels(met: &Tally<String>) {
    let above = usize::from(Level::FACTORY.0) + 1;
    for own in Level::ALL {
        for stated in 0..=above {
            let name = if stated < usize::from(own.0) {
                refused_at(own, stated)
            } else {
                begun_at(own, stated)
            };
            let count = met.count(&name);
            assert!(count >= FEWEST_EACH_LEVEL, "{name}: {count}");
        }
    }
}

/// Begins a run of a damaged image; which question refuses it.
fn begin_damaged(seed: u64, met: &mut Tally<String>) -> usize {
    let image = damaged(seed).bytes;
    let program = Program::accept(&image);
    let mut random = Random::new(seed);
    let start = Start {
        image: &image,
        level: random.pick(&[0, 1, 2, 3]),
        entry: random.pick(&[(0, 0), (0, 1), (40, 0)]),
        words: vec![-1; random.below(4)],
        places: random.pick(&[0, BUFFER - 1, BUFFER, BUFFER]),
    };
    let origin = format!("damaged seed {seed}");
    match begin(&start, &program, &origin) {
        Ok(_) => met.meet("begun".to_string()),
        Err(refusal) => met.meet(format!("begin refused by {}", refusal.number)),
    }
    0
}

#[test]
fn no_run_begins_of_an_image_that_is_refused() {
    let (met, _) = in_parallel(DAMAGED, begin_damaged);
    println!("{DAMAGED} damaged images\n{met}");
    assert_met(&met, QUESTIONS.map(|n| format!("begin refused by {n}")));
}
