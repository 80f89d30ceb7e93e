//! Levels: accepted images have calls down and across, damaged ones fail each part of
//! the rules on levels, runs state levels of all kinds, and searches pass over.

use generator::{
    accepted, accepted_of, begun, call_up, damaged_at, entry, level, level_fault, Tally, Theme,
    Trap, LEVEL_FAULTS, PLACES_OF_CALLS,
};
use reference::{verdict, Instruction, Level, Program, Said, State};
use std::cmp::Ordering;

/// A number above all levels.
const ABOVE: usize = 3;

/// Where a call goes, by the levels of its version and of the one called.
fn direction(own: Level, called: Level) -> &'static str {
    match called.cmp(&own) {
        Ordering::Less => "down",
        Ordering::Equal => "across",
        Ordering::Greater => "up",
    }
}

/// The directions of the calls of an image, and whether each stands in a promise block.
fn calls(program: &Program) -> Vec<(&'static str, bool)> {
    let mut calls = Vec::new();
    for version in &program.versions {
        for (number, block) in version.blocks.iter().enumerate() {
            let called = block.instructions.iter().filter_map(|i| match i.item {
                Instruction::Call {
                    function, version, ..
                } => program.version(function.into(), version.into()),
                _ => None,
            });
            calls.extend(called.map(|v| (direction(version.level, v.level), number > 0)));
        }
    }
    calls
}

#[test]
fn accepted_images_call_down_and_across_at_every_level() {
    let (mut levels, mut met) = (Tally::default(), Tally::default());
    for seed in 0..2000 {
        let program = Program::accept(&accepted(seed)).expect("an accepted image");
        program.versions.iter().for_each(|v| levels.meet(v.level));
        calls(&program).into_iter().for_each(|call| met.meet(call));
    }
    println!("{levels}in promise blocks\n{met}");
    for level in Level::ALL {
        assert!(levels.count(&level) >= 500, "{level:?}");
    }
    for in_promise in [false, true] {
        for direction in ["down", "across"] {
            assert!(met.count(&(direction, in_promise)) >= 100, "{direction}");
        }
        assert_eq!(met.count(&("up", in_promise)), 0);
    }
}

#[test]
fn each_fault_of_a_level_record_and_calls_up_in_every_place_are_met() {
    let mut met = Tally::default();
    for aim in [3, 4, 18] {
        for seed in 0..3000 {
            let image = damaged_at(aim, seed);
            let verdict = verdict(&image);
            let fault = level_fault(&image, verdict).or_else(|| call_up(&image, verdict));
            fault.into_iter().for_each(|fault| met.meet(fault));
        }
    }
    println!("{met}");
    for fault in LEVEL_FAULTS.iter().chain(&PLACES_OF_CALLS) {
        assert!(met.count(fault) >= 50, "{fault}");
    }
}

#[test]
fn runs_state_levels_at_and_above_that_of_their_entry() {
    let mut met = Tally::default();
    for seed in 0..3000 {
        let program = Program::accept(&accepted(seed)).expect("an accepted image");
        let Some(entry) = entry(seed, &program) else {
            continue;
        };
        let stated = level(seed, &program, entry);
        let own = program.version(entry.0, entry.1).expect("the entry").level;
        met.meet((own, stated.min(ABOVE)));
    }
    println!("{met}");
    for own in Level::ALL {
        for stated in 0..=ABOVE {
            let expected = stated >= usize::from(own.0);
            let count = met.count(&(own, stated));
            assert_eq!(count >= 10, expected, "{own:?} stated {stated}: {count}");
        }
    }
}

/// Meets what the levels did to the searches of a run.
fn meet_searches(program: &Program, mut state: State, met: &mut Tally<&'static str>) {
    for _ in 0..2000 {
        if let Some(search) = state.search(program) {
            let without = state.search_at(program, Level::FACTORY);
            met.meet(match search.first {
                _ if without == Some(search) => "the same",
                None => "none, but for levels",
                Some(_) => "another, but for levels",
            });
        }
        let (after, said) = state.step(program);
        state = after;
        if said != Said::GoesOn {
            break;
        }
    }
}

#[test]
fn searches_pass_over_versions_that_fit_but_for_their_level() {
    let mut met = Tally::default();
    let misfit = |seed| accepted_of(Theme::Trap(Trap::NoFit), seed);
    let images = (0..4000).map(|seed| (seed, accepted(seed)));
    for (seed, image) in images.chain((0..1000).map(|seed| (seed, misfit(seed)))) {
        let program = Program::accept(&image).expect("an accepted image");
        if let Some(state) = begun(seed, &program) {
            meet_searches(&program, state, &mut met);
        }
    }
    println!("{met}");
    for (what, fewest) in [
        ("none, but for levels", 20),
        ("another, but for levels", 100),
        ("the same", 1000),
    ] {
        assert!(met.count(&what) >= fewest, "{what}");
    }
}
