//! Searches of DISPATCH: each place of the first version that fits, none that
//! fits, and arguments of each kind are met.

use generator::{accepted, accepted_of, begun, Tally, Theme, Trap};
use reference::bounds::VERSIONS_EACH;
use reference::{Instruction, Kind, Program, Said, Search, State};

/// The most steps that a run is given.
const STEPS: usize = 2000;

/// A search in words.
fn outcome(search: Search) -> String {
    match search.first {
        Some(number) => format!("version {number} of {}", search.versions),
        None => format!("none of {}", search.versions),
    }
}

/// The kinds of the arguments of the DISPATCH that a state stands at.
fn kinds(program: &Program, state: &State) -> Vec<Kind> {
    let Some(instruction @ Instruction::Dispatch { .. }) = state.instruction(program) else {
        return vec![];
    };
    let top = state.activations.last().expect("a call lives");
    let registers = state.frames[top.frame].registers;
    let values = instruction.reads().into_iter();
    let kinds = values.map(|r| state.kind(program, registers[usize::from(r)]?));
    kinds.collect::<Option<_>>().expect("arguments have kinds")
}

/// Meets the searches of a run, and the kinds of their arguments.
fn meet_searches(program: &Program, mut state: State, met: &mut Tally<String>) {
    for _ in 0..STEPS {
        if let Some(search) = state.search(program) {
            met.meet(outcome(search));
            for kind in kinds(program, &state) {
                met.meet(format!("an argument of {kind:?}"));
            }
        }
        let (after, said) = state.step(program);
        state = after;
        if said != Said::GoesOn {
            break;
        }
    }
}

#[test]
fn searches_come_to_every_outcome_with_arguments_of_every_kind() {
    let mut met = Tally::default();
    let misfit = |seed| accepted_of(Theme::Trap(Trap::NoFit), seed);
    let images = (0..4000).map(|seed| (seed, accepted(seed)));
    for (seed, image) in images.chain((0..1000).map(|seed| (seed, misfit(seed)))) {
        let program = Program::accept(&image).expect("an accepted image");
        if let Some(state) = begun(seed, &program) {
            meet_searches(&program, state, &mut met);
        }
    }
    println!("{met}");
    for versions in 1..=VERSIONS_EACH {
        for number in 0..versions {
            let thing = format!("version {number} of {versions}");
            assert!(met.count(&thing) >= 100, "{thing}");
        }
        let thing = format!("none of {versions}");
        assert!(met.count(&thing) >= 30, "{thing}");
    }
    for kind in [Kind::INTEGER, Kind::VECTOR, Kind::QUIET, Kind::REFLECTIVE] {
        let thing = format!("an argument of {kind:?}");
        assert!(met.count(&thing) >= 100, "{thing}");
    }
}
