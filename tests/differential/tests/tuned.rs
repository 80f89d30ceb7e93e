//! The tuned interpreter and the reference give the same ends, results and steps.

use differential::tuned::{Code, Machine};
use differential::workloads::workloads;
use generator::{accepted, accepted_of, begun, Random, Special, Tally, Theme};
use reference::bounds::{Steps, BUFFER};
use reference::watched::{Watched, ENDINGS};
use reference::{longest, Answer, Bound, Program, State};

/// How many generated programs are run.
const PROGRAMS: u64 = 12_000;

/// The most steps that a run is given.
const MOST: usize = 20_000;

/// The highest level.
const HIGHEST: usize = 2;

/// A budget: none, a few steps, or many.
fn any_budget(random: &mut Random) -> Steps {
    match random.below(10) {
        0 => 0,
        1..=5 => random.below(12) as Steps,
        6..=8 => random.below(200) as Steps,
        _ => MOST as Steps,
    }
}

/// The most steps that a begun run takes; no limit where it has no bound.
fn bound_of(program: &Program, begun: &State) -> usize {
    let first = &begun.frames[0];
    match longest::bound_of(program, first.function.into(), first.version.into()) {
        Some(Bound::Steps(steps)) => steps as usize,
        _ => usize::MAX,
    }
}

/// Runs a program from its entry on both, by budgets of any size, past its end.
fn compare(image: &[u8], seed: u64, met: &mut Tally<&'static str>) {
    let program = Program::accept(image).expect("an accepted image");
    let Some(mut state) = begun(seed, &program) else {
        return;
    };
    let code = Code::new(&program);
    let mut tuned = Machine::new(&program, &code, &state);
    let bound = bound_of(&program, &state);
    let mut random = Random::new(seed);
    let mut taken = 0;
    for _ in 0..200 {
        let budget = any_budget(&mut random);
        let (after, answer, steps) = state.budget(&program, budget, &mut [0; BUFFER]);
        state = after;
        assert_eq!(tuned.budget(budget), (answer, steps), "seed {seed}");
        assert_eq!(tuned.result(), state.result, "seed {seed}");
        taken += steps as usize;
        assert!(taken <= bound, "seed {seed}: {taken} steps of {bound}");
        if taken > MOST || (steps == 0 && matches!(answer, Answer::Ended(_))) {
            break;
        }
    }
    if let Some(ending) = Watched::new(&program, state, HIGHEST, &format!("seed {seed}")).ending() {
        met.meet(ending);
    }
}

#[test]
fn tuned_interpreter_does_what_the_reference_does() {
    let mut met = Tally::default();
    for seed in 0..PROGRAMS {
        compare(&accepted(seed), seed, &mut met);
    }
    println!("{met}");
    for ending in ENDINGS {
        assert!(met.count(ending) > 0, "no run ended so: {ending}");
    }
}

#[test]
fn tuned_interpreter_does_so_in_large_and_special_programs() {
    let themes = [
        Theme::Many,
        Theme::Large,
        Theme::Recursive,
        Theme::Special(Special::Endless),
        Theme::Special(Special::Vectors),
        Theme::Special(Special::Promises),
        Theme::Special(Special::Ladder),
    ];
    let mut met = Tally::default();
    for theme in themes {
        for seed in 0..150 {
            compare(&accepted_of(theme, seed), seed, &mut met);
        }
    }
    println!("{met}");
    for ending in ["DONE, integer", "DEEP", "VECTORS", "PROMISES"] {
        assert!(met.count(ending) > 0, "no run ended so: {ending}");
    }
}

#[test]
fn every_workload_is_accepted() {
    for workload in workloads() {
        let verdict = reference::verdict(&workload.image);
        let accepted = matches!(verdict, reference::Verdict::Accepted(_));
        assert!(accepted, "{}: {verdict:?}", workload.name);
    }
}
