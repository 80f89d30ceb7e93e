//! Runs of 32 bits: whatever in the form and the range before ends otherwise than
//! in UNDEF has the same result and steps once each literal is of kind 36.

use crate::HIGHEST;
use generator::{accepted_before, entry, words_before, Random, Tally};
use reference::bounds::{Steps, BUFFER};
use reference::watched::{Watched, ENDINGS};
use reference::{widened, Answer, End, Form, Program, Range, Said, State, Verdict};

/// The most steps that a run is given.
const STEPS: usize = 2000;

/// The program of an image of the form before, and of the same image with each
/// literal of kind 36.
fn both_forms(image: &[u8]) -> (Program, Program) {
    let old = Program::accept_in(Form::Narrow, image).expect("accepted before");
    let wide = widened(image).expect("whole records");
    let new = Program::accept(&wide).expect("accepted");
    (old, new)
}

/// Steps a run in both ranges at once. As long as the range before does not make
/// UNDEF, state and reply are the same; the last state that both have, and what
/// each said of it.
fn step_both(old: &Program, new: &Program, mut state: State) -> (State, Said, Said) {
    for _ in 0..STEPS {
        let (before, said_before) = state.clone().step_to(Range::NARROW, old);
        let (after, said) = state.clone().step(new);
        if said_before == Said::Ended(End::Undef) {
            return (state, said_before, said);
        }
        assert_eq!((&before, said_before), (&after, said));
        if said != Said::GoesOn {
            return (after, said_before, said);
        }
        state = after;
    }
    (state, Said::GoesOn, Said::GoesOn)
}

/// How the run ends from here in the range in force.
fn ending(program: &Program, state: State) -> &'static str {
    let mut run = Watched::new(program, state, HIGHEST, "a run of 32 bits");
    while run.tried() < STEPS && !run.ended() {
        run.step();
    }
    run.ending().unwrap_or("goes on")
}

/// What a run comes to in both ranges.
fn outcome(old: &Program, new: &Program, state: State) -> String {
    let (last, before, now) = step_both(old, new, state);
    if before == now {
        return format!("the same: {}", ending(new, last));
    }
    format!("out of the range before, now: {}", ending(new, last))
}

/// Asserts of a budget that does not answer UNDEF in the range before that its
/// state, answer, steps and buffer are the same in the range in force.
fn assert_budget(old: &Program, new: &Program, state: &State, budget: Steps) {
    let (mut old_buffer, mut buffer) = ([77; BUFFER], [77; BUFFER]);
    let before = state
        .clone()
        .budget_to(Range::NARROW, old, budget, &mut old_buffer);
    if before.1 != Answer::Ended(End::Undef) {
        let now = state.clone().budget(new, budget, &mut buffer);
        assert_eq!((before, old_buffer), (now, buffer));
    }
}

#[test]
fn runs_of_32_bits_are_the_same_but_for_undef() {
    let (mut met, mut kept, mut freed) = (Tally::default(), 0, 0);
    for seed in 0..8000 {
        let (old, new) = both_forms(&accepted_before(seed));
        let Some((function, version)) = entry(seed, &old) else {
            continue;
        };
        let words = words_before(seed, &old, (function, version));
        let begin =
            |program| State::begin(program, HIGHEST, function, version, &words, &[0; BUFFER]);
        assert_eq!(begin(&old), begin(&new));
        let Ok(state) = begin(&old) else {
            continue;
        };
        let budget = Random::new(seed).below(200) as Steps;
        for budget in [budget, STEPS as Steps] {
            assert_budget(&old, &new, &state, budget);
        }
        let outcome = outcome(&old, &new, state);
        kept += usize::from(outcome.starts_with("the same"));
        freed += usize::from(outcome.starts_with("out"));
        met.meet(outcome);
    }
    println!("{kept} runs are the same, {freed} no longer out of range\n{met}");
    assert!(kept >= 5000 && freed >= 500);
    let ends = ENDINGS.iter().filter(|ending| !ending.contains("range"));
    for ending in ends {
        assert!(met.count(&format!("the same: {ending}")) >= 3, "{ending}");
    }
    let gone_on = "out of the range before, now: DONE, integer";
    assert!(met.count(gone_on) >= 100);
}

#[test]
fn the_forms_differ_in_their_literals_alone() {
    for seed in 0..2000 {
        let image = accepted_before(seed);
        let literals = |form, image: &[u8]| {
            let program = Program::accept_in(form, image).expect("accepted");
            let blocks = program.versions.into_iter().flat_map(|v| v.blocks);
            let instructions = blocks.flat_map(|b| b.instructions).map(|i| i.item);
            instructions.collect::<Vec<_>>()
        };
        let wide = widened(&image).expect("whole records");
        let (before, now) = (literals(Form::Narrow, &image), literals(Form::Wide, &wide));
        assert_eq!(before, now, "seed {seed}");
        let has_literal = image != wide;
        let refused = matches!(reference::verdict(&image), Verdict::Refused(no) if no.number == 3);
        assert_eq!(refused, has_literal, "seed {seed}");
    }
}
