//! Runs of accepted images: demand 3 at each step, and every end reached.

use crate::watched;
use generator::{accepted, accepted_of, begun, Special, Tally, Theme};
use reference::state::Opener;
use reference::watched::{Watched, ENDINGS};
use reference::{Program, Said, State, Value};

/// The most steps that a run is given.
const STEPS: usize = 4000;

/// Steps a run to its end under the monitor of demand 3.
#[track_caller]
fn run_watched(program: &Program, state: State, seed: u64) -> Watched {
    let mut run = watched(program, state, &format!("seed {seed}"));
    while run.tried() < STEPS && !run.ended() {
        run.step();
    }
    run
}

#[test]
fn demand_3_holds_at_each_step_and_every_end_is_reached() {
    let (mut met, mut steps, mut runs) = (Tally::default(), 0, 0);
    for seed in 0..6000 {
        let program = Program::accept(&accepted(seed)).expect("an accepted image");
        let Some(state) = begun(seed, &program) else {
            met.meet("refused by 12");
            continue;
        };
        let run = run_watched(&program, state, seed);
        met.meet(run.ending().unwrap_or("goes on"));
        steps += run.tried();
        runs += 1;
    }
    println!("{runs} runs, {} steps each\n{met}", steps / runs);
    let done = ENDINGS.iter().filter(|ending| ending.starts_with("DONE"));
    let done: usize = done.map(|ending| met.count(ending)).sum();
    assert!(done * 2 > runs, "most runs are DONE");
    for ending in ENDINGS {
        assert!(met.count(&ending) >= 3, "{ending}");
    }
    assert_eq!(met.count("UNDEF, without a cause"), 0);
}

/// What a state shows that is worth meeting.
fn sights(program: &Program, state: &State) -> Vec<&'static str> {
    let mut sights = Vec::new();
    let mut note = |condition: bool, name| sights.extend(condition.then_some(name));
    let activations = &state.activations;
    let forces = activations
        .windows(2)
        .filter(|pair| matches!(pair[1].opener, Opener::Force(_)));
    for pair in forces {
        note(true, "a force");
        note(pair[1].frame < pair[0].frame, "a force from a newer call");
        note(pair[0].block > 0, "a force inside a promise block");
    }
    for call in 1..state.frames.len() {
        let version = state.version(program, call).expect("the version exists");
        for (parameter, value) in version
            .parameters()
            .iter()
            .zip(state.frames[call].registers)
        {
            note(
                parameter.is_borrowed() && value.is_some(),
                "a borrowed vector",
            );
            note(
                parameter.is_owned() && value.is_some(),
                "an owned vector given away",
            );
            note(
                matches!(value, Some(Value::Promise(_))),
                "a promise given down",
            );
        }
    }
    note(activations.len() == 32, "32 activations");
    note(state.counted_vectors().len() == 64, "64 vectors");
    note(state.counted_promises().len() == 64, "64 promises");
    sights
}

#[test]
fn runs_show_what_is_worth_meeting() {
    let mut met = Tally::default();
    for seed in 0..1500 {
        let program = Program::accept(&accepted(seed)).expect("an accepted image");
        let Some(mut state) = begun(seed, &program) else {
            continue;
        };
        for _ in 0..STEPS {
            sights(&program, &state)
                .into_iter()
                .for_each(|s| met.meet(s));
            let (after, said) = state.step(&program);
            state = after;
            if said != Said::GoesOn {
                break;
            }
        }
    }
    println!("states that show\n{met}");
    for sight in [
        "a force",
        "a force from a newer call",
        "a force inside a promise block",
        "a borrowed vector",
        "an owned vector given away",
        "a promise given down",
        "32 activations",
        "64 vectors",
        "64 promises",
    ] {
        assert!(met.count(&sight) >= 5, "{sight}");
    }
}

#[test]
fn large_and_special_programs_run_under_the_monitor_too() {
    let themes = [
        Theme::Many,
        Theme::Large,
        Theme::Recursive,
        Theme::Special(Special::Vectors),
        Theme::Special(Special::Promises),
    ];
    for theme in themes {
        for seed in 0..20 {
            let program = Program::accept(&accepted_of(theme, seed)).expect("an accepted image");
            if let Some(state) = begun(seed, &program) {
                run_watched(&program, state, seed);
            }
        }
    }
}
