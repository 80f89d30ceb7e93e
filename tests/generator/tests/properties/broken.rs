//! States that no run reaches: a step never panics, and where it is stuck nothing changes.

use generator::{accepted, begun, Random, Tally};
use reference::bounds::BUFFER;
use reference::state::{Activation, Opener, Promise};
use reference::{Answer, Program, Said, State, Value};

/// A place, sometimes past the last.
fn place(random: &mut Random) -> usize {
    let near = random.below(70);
    random.pick(&[0, 1, 2, near, usize::MAX])
}

/// A small number, sometimes any.
fn small(random: &mut Random) -> u8 {
    let any = random.byte();
    let few = random.below(4) as u8;
    random.pick(&[0, 1, few, few, any])
}

/// What a register or a name may wrongly hold.
fn value(random: &mut Random) -> Option<Value> {
    match random.below(4) {
        0 => None,
        1 => Some(Value::Integer(random.number() as i64)),
        2 => Some(Value::Vector(place(random))),
        _ => Some(Value::Promise(place(random))),
    }
}

/// An activation that may point anywhere.
fn activation(random: &mut Random) -> Activation {
    let forced = Opener::Force(place(random));
    Activation {
        opener: random.pick(&[Opener::Call, forced]),
        d: small(random),
        frame: random.below(4),
        block: small(random),
        next: random.below(12),
    }
}

/// Changes one thing of a state.
fn break_state(random: &mut Random, state: &mut State) {
    let frames = state.frames.len();
    let activations = state.activations.len();
    match random.below(9) {
        0..=2 if frames > 0 => {
            let frame = &mut state.frames[random.below(frames)];
            frame.registers[random.below(16)] = value(random);
        }
        3 if frames > 0 => {
            state.frames[random.below(frames)].names[random.below(8)] = value(random);
        }
        4 if frames > 0 => {
            let frame = random.below(frames);
            state.frames[frame].version = small(random);
        }
        5 if activations > 0 => {
            state.activations[random.below(activations)] = activation(random);
        }
        6 => state.activations.push(activation(random)),
        7 => state.vectors[random.below(64)] = random.pick(&[None, Some(vec![1; 20])]),
        _ => {
            let promise = Promise {
                frame: random.below(4),
                block: small(random),
                cache: None,
            };
            state.promises[random.below(64)] = random.pick(&[None, Some(promise)]);
        }
    }
}

/// Steps a state that may be broken; what the last step said.
fn try_steps(program: &Program, mut state: State) -> Said {
    for _ in 0..60 {
        let before = state.clone();
        let (after, said) = state.step(program);
        if said == Said::Stuck {
            assert_eq!(after, before);
            let by_budget = after.budget(program, 9, &mut [0; BUFFER]);
            assert_eq!(by_budget, (before, Answer::Stuck, 0));
            return said;
        }
        if said != Said::GoesOn {
            return said;
        }
        state = after;
    }
    Said::GoesOn
}

#[test]
fn broken_states_step_without_panic_and_stuck_ones_stay_as_they_are() {
    let mut met = Tally::default();
    for seed in 0..6000 {
        let program = Program::accept(&accepted(seed)).expect("an accepted image");
        let Some(mut state) = begun(seed, &program) else {
            continue;
        };
        let mut random = Random::new(seed);
        for _ in 0..random.below(20) {
            state = state.step(&program).0;
        }
        for _ in 0..1 + random.below(3) {
            break_state(&mut random, &mut state);
        }
        met.meet(match try_steps(&program, state) {
            Said::Stuck => "stuck",
            Said::GoesOn => "goes on",
            Said::Ended(_) => "ended",
        });
    }
    println!("{met}");
    assert!(met.count("stuck") > 1000);
    assert!(met.count("ended") > 500);
}
