//! Operations that runs meet at the ends of both ranges: sums, differences and
//! products of each sign that just fit and that just do not; and argument words
//! beyond 32 bits.

use crate::HIGHEST;
use generator::{accepted, accepted_of, begun, entry, words, Tally, Theme, Trap};
use reference::bounds::BUFFER;
use reference::{kinds, Instruction, Integer, Program, Range, Register, Said, State, Value};

/// The most steps that a run is given.
const STEPS: usize = 2000;

/// Both ranges, with their names.
const RANGES: [(&str, Range); 2] = [("narrow", Range::NARROW), ("wide", Range::WIDE)];

/// The integer in a register of the newest activation.
fn integer(state: &State, register: Register) -> Option<Integer> {
    let frame = state.activations.last()?.frame;
    match state.frames[frame].registers[usize::from(register)] {
        Some(Value::Integer(integer)) => Some(integer),
        _ => None,
    }
}

/// The operation and its operands, if the next step is one.
fn operation(program: &Program, state: &State) -> Option<(u8, Integer, Integer)> {
    match *state.instruction(program)? {
        Instruction::Arith { op, a, b, .. } => Some((op, integer(state, a)?, integer(state, b)?)),
        _ => None,
    }
}

/// How an exact result stands to the ends of a range, if it is at one.
fn at_an_end(exact: i128, range: Range) -> Option<&'static str> {
    let (least, greatest) = (i128::from(range.least), i128::from(range.greatest));
    match exact {
        z if z == least => Some("is the least"),
        z if z == greatest => Some("is the greatest"),
        z if z == least - 1 => Some("is one below the least"),
        z if z == greatest + 1 => Some("is one above the greatest"),
        _ => None,
    }
}

/// The sign of an integer.
fn sign(integer: Integer) -> &'static str {
    if integer < 0 {
        "minus"
    } else {
        "plus"
    }
}

/// How a product stands to the ends of a range, if a first operand that is one
/// more, or one less, in size makes it fall on the other side.
fn product_at_an_end(a: Integer, b: Integer, range: Range) -> Option<String> {
    let fits = |a: i128| {
        let exact = a * i128::from(b);
        i128::from(range.least) <= exact && exact <= i128::from(range.greatest)
    };
    let outward = i128::from(a.signum());
    let a_wide = i128::from(a);
    let how = match (fits(a_wide), fits(a_wide + outward), fits(a_wide - outward)) {
        (true, false, _) => "just fits",
        (false, _, true) => "just does not fit",
        _ => return None,
    };
    Some(format!("{} times {} {how}", sign(a), sign(b)))
}

/// What an operation shows at the ends of a range.
fn sights(op: u8, a: Integer, b: Integer, (name, range): (&str, Range)) -> Vec<String> {
    let (x, y) = (i128::from(a), i128::from(b));
    let mut sights = Vec::new();
    let mut note = |sight: Option<String>| sights.extend(sight.map(|s| format!("{name}: {s}")));
    match op {
        kinds::ADD => note(at_an_end(x + y, range).map(|end| format!("a sum {end}"))),
        kinds::SUBTRACT => note(at_an_end(x - y, range).map(|end| format!("a difference {end}"))),
        kinds::MULTIPLY if (a, b) == (range.least, -1) || (b, a) == (range.least, -1) => {
            note(Some("the least times minus one".to_string()));
        }
        kinds::MULTIPLY if a.abs_diff(0).min(b.abs_diff(0)) > 1 => {
            note(product_at_an_end(a, b, range));
        }
        kinds::DIVIDE if (a, b) == (range.least, -1) => {
            note(Some("the least by minus one".to_string()));
        }
        _ => {}
    }
    sights
}

/// Meets what the operations of a run show.
fn meet_operations(program: &Program, mut state: State, met: &mut Tally<String>) {
    for _ in 0..STEPS {
        if let Some((op, a, b)) = operation(program, &state) {
            for range in RANGES {
                sights(op, a, b, range)
                    .into_iter()
                    .for_each(|s| met.meet(s));
            }
        }
        let (after, said) = state.step(program);
        state = after;
        if said != Said::GoesOn {
            break;
        }
    }
}

#[test]
fn operations_come_to_each_end_of_both_ranges() {
    let mut met = Tally::default();
    let trap = |seed| accepted_of(Theme::Trap(Trap::Range), seed);
    let images = (0..6000).map(|seed| (seed, accepted(seed)));
    for (seed, image) in images.chain((0..1000).map(|seed| (seed, trap(seed)))) {
        let program = Program::accept(&image).expect("an accepted image");
        if let Some(state) = begun(seed, &program) {
            meet_operations(&program, state, &mut met);
        }
    }
    println!("{met}");
    for (range, _) in RANGES {
        for of in ["a sum", "a difference"] {
            for end in [
                "is the least",
                "is the greatest",
                "is one below the least",
                "is one above the greatest",
            ] {
                let sight = format!("{range}: {of} {end}");
                assert!(met.count(&sight) >= 10, "{sight}");
            }
        }
        for signs in [
            "plus times plus",
            "plus times minus",
            "minus times plus",
            "minus times minus",
        ] {
            for how in ["just fits", "just does not fit"] {
                let sight = format!("{range}: {signs} {how}");
                assert!(met.count(&sight) >= 10, "{sight}");
            }
        }
        for least in ["the least times minus one", "the least by minus one"] {
            let sight = format!("{range}: {least}");
            assert!(met.count(&sight) >= 10, "{sight}");
        }
    }
}

/// Is the word a head word by its low 32 bits, and not by all of its bits?
fn is_head_by_its_low_bits(word: Integer) -> bool {
    let low = Integer::from(word as i32);
    low != word && (-1..=16).contains(&low)
}

#[test]
fn words_beyond_32_bits_are_met_as_heads_and_as_integers() {
    let (mut refused, mut minus_1, mut integers) = (0, 0, 0);
    for seed in 0..20_000 {
        let program = Program::accept(&accepted(seed)).expect("an accepted image");
        let Some(entry) = entry(seed, &program) else {
            continue;
        };
        let words = words(seed, &program, entry);
        let begun = State::begin(&program, HIGHEST, entry.0, entry.1, &words, &[0; BUFFER]);
        if words
            .first()
            .is_some_and(|&head| is_head_by_its_low_bits(head))
        {
            assert_eq!(begun.map_err(|no| no.number), Err(12), "seed {seed}");
            refused += 1;
            minus_1 += usize::from(words[0] as i32 == -1);
        } else if begun.is_ok() {
            let far = |word: &&Integer| i32::try_from(**word).is_err();
            integers += words.iter().filter(far).count();
        }
    }
    println!("{refused} heads beyond 32 bits refused by 12, {minus_1} of them -1 in 32 bits");
    println!("{integers} integers beyond 32 bits");
    assert!(refused >= 100 && minus_1 >= 30 && integers >= 500);
}
