//! Runs of the proved engine in one call, and what can be seen of their states.

use differential::difference::difference;
use differential::engine;
use differential::paced::Paced;
use differential::snapshot::{state_of, untouched};
use generator::{accepted, entry, level, words, Random};
use library::{Held, Run, CELLS};
use reference::bounds::{Steps, BUFFER};
use reference::{Answer, Integer, Program, State, Value};

/// How many programs are generated, and the fewest of them that begin.
const PROGRAMS: u64 = 4_000;
const FEWEST_RUNS: usize = 2_500;

/// The highest level.
const HIGHEST: usize = 2;

/// Does each place of each call show what the reference holds there, and no other place anything?
fn assert_seen(proved: &Run, expected: &State, origin: &str) -> usize {
    let mut seen = 0;
    for (call, frame) in expected.frames.iter().enumerate() {
        for (place, held) in frame.registers.iter().chain(&frame.names).enumerate() {
            let expected = match *held {
                None => Held::Nothing,
                Some(Value::Integer(integer)) => Held::Integer(integer),
                Some(Value::Vector(place)) => Held::Vector(place),
                Some(Value::Promise(place)) => Held::Promise(place),
            };
            assert_eq!(proved.look(call, place), Some(expected), "{origin}");
            seen += usize::from(expected != Held::Nothing);
        }
        assert_eq!(proved.look(call, CELLS), None, "{origin}");
    }
    assert_eq!(proved.look(expected.frames.len(), 0), None, "{origin}");
    seen
}

/// Asserts that a run comes to the same at each higher level.
fn assert_same_at_higher_levels(
    level: usize,
    (run, answer, steps): (&Run, Answer, Steps),
    buffer: &[Integer],
    begin: impl Fn(usize, &mut [Integer]) -> (Paced<'static>, Answer, Steps),
) {
    for higher in [level.saturating_add(1), level.max(HIGHEST), usize::MAX] {
        let mut again = vec![-7; buffer.len()];
        let same = begin(higher, &mut again);
        assert_eq!((same.1, same.2), (answer, steps), "at {higher}");
        assert!(same.0.state() == run.state(), "at {higher}");
        assert_eq!(again, buffer, "at {higher}");
    }
}

/// Runs a program by one call on each side; how many filled places were seen,
/// none where the run is refused.
fn run(seed: u64) -> Option<usize> {
    let origin = format!("seed {seed}");
    let image = accepted(seed);
    let program = Program::accept(&image).expect("an accepted image");
    let entry = entry(seed, &program)?;
    let words = words(seed, &program, entry);
    let level = level(seed, &program, entry);
    let mut random = Random::new(seed);
    let budget = random.pick(&[0, 1, 5, 20, 60, 20_000]) as Steps;
    let places = random.pick(&[BUFFER, BUFFER, BUFFER + 3, BUFFER - 1]);
    let (mut expected, mut found) = (vec![-7; places], vec![-7; places]);
    let (run, answer, steps) = engine::run(&image, level, entry, &words, budget, &mut found);
    match State::begin(&program, level, entry.0, entry.1, &words, &expected) {
        Err(refusal) => {
            assert_eq!((answer, steps), (Answer::Refused(refusal), 0), "{origin}");
            assert!(
                *run.state() == untouched(),
                "{origin}: the state is as it was"
            );
            assert!(run.image().is_empty(), "{origin}: the image is as it was");
            assert_eq!(found, expected, "{origin}: the buffer is as it was");
            None
        }
        Ok(begun) => {
            let (after, right, count) = begun.budget(&program, budget, &mut expected);
            assert_eq!((answer, steps), (right, count), "{origin}");
            assert_eq!(found, expected, "{origin}");
            let stands_for = state_of(run.state()).expect("numbers that stand for a state");
            let after = after.tidied();
            assert_eq!(difference(&after, &stands_for), None, "{origin}");
            let search = after.search(&program).map(|s| (s.looked(), s.versions));
            assert_eq!(engine::search(&run), search, "{origin}");
            assert_eq!(engine::position(&run), after.position(&program), "{origin}");
            let begin = |level, buffer: &mut [Integer]| {
                engine::run(&image, level, entry, &words, budget, buffer)
            };
            assert_same_at_higher_levels(level, (&run, right, count), &found, begin);
            Some(assert_seen(&run, &after, &origin))
        }
    }
}

#[test]
fn runs_in_one_call_agree_and_their_states_can_be_seen() {
    let seen: Vec<usize> = (0..PROGRAMS).filter_map(run).collect();
    let places: usize = seen.iter().sum();
    println!("{} runs, {places} filled places seen", seen.len());
    assert!(seen.len() >= FEWEST_RUNS, "{} runs", seen.len());
    assert!(seen.len() < PROGRAMS as usize, "no run was refused");
    assert!(places > seen.len(), "{places} filled places");
}
