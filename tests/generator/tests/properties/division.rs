//! Divisions that runs meet: dividends and divisors of both signs, exact and not,
//! and at both ends of the range.

use generator::{accepted, begun, Tally};
use reference::{kinds, Instruction, Integer, Program, Register, Said, State, Value};

/// The most steps that a run is given.
const STEPS: usize = 2000;

/// The integer in a register of the newest activation.
fn integer(state: &State, register: Register) -> Option<Integer> {
    let frame = state.activations.last()?.frame;
    match state.frames[frame].registers[usize::from(register)] {
        Some(Value::Integer(integer)) => Some(integer),
        _ => None,
    }
}

/// The dividend and the divisor, if the next step divides.
fn division(program: &Program, state: &State) -> Option<(Integer, Integer)> {
    match *state.instruction(program)? {
        Instruction::Arith {
            op: kinds::DIVIDE,
            a,
            b,
            ..
        } => Some((integer(state, a)?, integer(state, b)?)),
        _ => None,
    }
}

/// A word for the sign of an integer that is not 0.
fn sign(integer: Integer) -> &'static str {
    if integer < 0 {
        "minus"
    } else {
        "plus"
    }
}

/// What a division is like that has a quotient.
fn sights(a: Integer, b: Integer) -> Vec<String> {
    let exact = if a % b == 0 { "exact" } else { "rounded" };
    let mut sights = Vec::new();
    if a != 0 {
        sights.push(format!("{} by {}, {exact}", sign(a), sign(b)));
    }
    for (name, end) in [("least", Integer::MIN), ("greatest", Integer::MAX)] {
        if a == end {
            sights.push(format!("the {name} by {}", sign(b)));
        }
        if b == end {
            sights.push(format!("by the {name}"));
        }
    }
    sights
}

#[test]
fn runs_divide_in_every_way() {
    let mut met = Tally::default();
    for seed in 0..6000 {
        let program = Program::accept(&accepted(seed)).expect("an accepted image");
        let Some(mut state) = begun(seed, &program) else {
            continue;
        };
        for _ in 0..STEPS {
            if let Some((a, b)) = division(&program, &state) {
                if a.checked_div(b).is_some() {
                    sights(a, b).into_iter().for_each(|s| met.meet(s));
                }
            }
            let (after, said) = state.step(&program);
            state = after;
            if said != Said::GoesOn {
                break;
            }
        }
    }
    println!("{met}");
    for signs in [
        "plus by plus",
        "plus by minus",
        "minus by plus",
        "minus by minus",
    ] {
        for exact in ["exact", "rounded"] {
            assert!(met.count(&format!("{signs}, {exact}")) >= 100, "{signs}");
        }
    }
    for sight in [
        "the least by plus",
        "the least by minus",
        "the greatest by plus",
        "the greatest by minus",
        "by the least",
        "by the greatest",
    ] {
        assert!(met.count(sight) >= 10, "{sight}");
    }
}
