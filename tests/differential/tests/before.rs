//! Runs of 32 bits: what the reference gives in the form and the range before,
//! compared with what the proved engine gives once each literal is of kind 36.

use differential::difference::difference;
use differential::engine;
use differential::snapshot::state_of;
use generator::{accepted_before, entry, words_before, Random, Tally};
use reference::bounds::{Steps, BUFFER};
use reference::{widened, Answer, End, Form, Program, Range, State};

/// How many programs are generated.
const PROGRAMS: u64 = 12_000;

/// The highest level, which every entry may be begun at.
const HIGHEST: usize = 2;

/// The name of an answer, without its numbers.
fn name(answer: Answer) -> &'static str {
    match answer {
        Answer::Refused(_) => "refused",
        Answer::Steps => "STEPS",
        Answer::Stuck => "stuck",
        Answer::Ended(End::Integer(_)) => "DONE, integer",
        Answer::Ended(End::Vector(_)) => "DONE, vector",
        Answer::Ended(End::Undef) => "UNDEF",
        Answer::Ended(End::Deep) => "DEEP",
        Answer::Ended(End::Vectors) => "VECTORS",
        Answer::Ended(End::Promises) => "PROMISES",
    }
}

/// Runs a program of the form before on both sides; what it comes to, none where
/// it does not begin.
fn run(seed: u64) -> Option<String> {
    let origin = format!("seed {seed}");
    let image = accepted_before(seed);
    let program = Program::accept_in(Form::Narrow, &image).expect("accepted before");
    let entry = entry(seed, &program)?;
    let words = words_before(seed, &program, entry);
    let begun = State::begin(&program, HIGHEST, entry.0, entry.1, &words, &[0; BUFFER]).ok()?;
    let budget = Random::new(seed).pick(&[5, 60, 20_000, 20_000, 20_000, 20_000]) as Steps;
    let (mut expected, mut found) = ([-7; BUFFER], [-7; BUFFER]);
    let (after, right, count) = begun.budget_to(Range::NARROW, &program, budget, &mut expected);
    let wide = widened(&image).expect("whole records");
    let (run, answer, steps) = engine::run(&wide, HIGHEST, entry, &words, budget, &mut found);
    if right == Answer::Ended(End::Undef) {
        let same = if answer == right { "the same" } else { "now" };
        return Some(format!("UNDEF before, {same}: {}", name(answer)));
    }
    assert_eq!((answer, steps), (right, count), "{origin}");
    assert_eq!(found, expected, "{origin}");
    let stands_for = state_of(run.state()).expect("numbers that stand for a state");
    assert_eq!(difference(&after.tidied(), &stands_for), None, "{origin}");
    Some(format!("the same: {}", name(answer)))
}

#[test]
fn runs_of_32_bits_have_the_same_result_and_steps_but_for_undef() {
    let mut met = Tally::default();
    for outcome in (0..PROGRAMS).filter_map(run) {
        let of = outcome.split(':').next().expect("a part before the colon");
        met.meet(of.to_string());
        met.meet(outcome);
    }
    println!("{met}");
    for (outcome, fewest) in [
        ("the same", 7_000),
        ("the same: STEPS", 1_000),
        ("the same: DONE, integer", 2_000),
        ("the same: DONE, vector", 1_000),
        ("the same: DEEP", 200),
        ("the same: VECTORS", 60),
        ("the same: PROMISES", 60),
        ("UNDEF before, the same", 500),
        ("UNDEF before, now", 800),
    ] {
        assert!(met.count(outcome) >= fewest, "{outcome}");
    }
}
