//! What images are like whose versions depend on each other.

use generator::{depending, exact, Shape, Tally};
use reference::bounds::{Steps, BUFFER, MAX_IMAGE, VERSIONS};
use reference::longest::{bound_of, may_enter, rows};
use reference::{bounds_of, Answer, Bound, Instruction, Integer, Level, Program, State};

/// How many images are made.
const IMAGES: u64 = 12_000;

/// The highest level.
const HIGHEST: usize = 2;

/// What the calls of a program are like, in words.
fn calls_of(program: &Program) -> Vec<String> {
    let mut names = Vec::new();
    for version in &program.versions {
        for (number, block) in version.blocks.iter().enumerate() {
            for placed in &block.instructions {
                let reached = may_enter(program, version, &placed.item).len();
                let name = match placed.item {
                    Instruction::Call { .. } => "CALL".to_string(),
                    Instruction::Dispatch { .. } => format!("DISPATCH that {reached} fit"),
                    _ => continue,
                };
                let place = if number > 0 { "a promise" } else { "a body" };
                names.push(format!("{name} in {place}"));
            }
        }
    }
    names
}

/// How many versions a DISPATCH of a program would reach more, were there no levels.
fn shut_out(program: &Program) -> usize {
    let mut open = program.clone();
    for version in &mut open.versions {
        version.level = Level::PORTAL;
    }
    let reached = |program: &Program| -> usize {
        let versions = program.versions.iter();
        let each = versions.flat_map(|own| {
            let lines = own.blocks.iter().flat_map(|block| &block.instructions);
            lines.map(move |placed| may_enter(program, own, &placed.item).len())
        });
        each.sum()
    };
    reached(&open) - reached(program)
}

/// What an accepted image has, in words.
fn met_by(program: &Program) -> Vec<String> {
    let mut names = calls_of(program);
    let rows = rows(program);
    assert_eq!(rows.len(), program.versions.len());
    for row in &rows {
        names.push(match row.bound {
            Bound::Steps(Steps::MAX) => "a bound of 4,294,967,295".to_string(),
            Bound::Steps(_) => "a bound".to_string(),
            Bound::Large => "large".to_string(),
            Bound::None => "none".to_string(),
        });
    }
    if rows.len() == VERSIONS {
        names.push("64 versions".to_string());
    }
    if shut_out(program) > 0 {
        names.push("a level that shuts a version out".to_string());
    }
    names
}

#[test]
fn versions_depend_on_each_other_in_every_way() {
    let mut met = Tally::default();
    for seed in 0..IMAGES {
        let given = depending(seed);
        let program = Program::accept(&given.image);
        match (&program, given.shape) {
            (Err(_), Shape::Broken) => met.meet("refused".to_string()),
            (Err(no), shape) => panic!("seed {seed}, {shape:?}: {no:?}"),
            (Ok(program), _) => met_by(program).into_iter().for_each(|name| met.meet(name)),
        }
    }
    println!("{met}");
    for (name, fewest) in [
        ("refused", 300),
        ("a bound", 20_000),
        ("a bound of 4,294,967,295", 20),
        ("large", 200),
        ("none", 5_000),
        ("64 versions", 100),
        ("a level that shuts a version out", 500),
        ("CALL in a promise", 1_000),
        ("DISPATCH that 0 fit in a body", 500),
        ("DISPATCH that 0 fit in a promise", 100),
        ("DISPATCH that 1 fit in a promise", 500),
        ("DISPATCH that 2 fit in a body", 1_000),
        ("DISPATCH that 3 fit in a body", 200),
        ("DISPATCH that 4 fit in a body", 50),
    ] {
        assert!(met.count(name) >= fewest, "{name}: {}", met.count(name));
    }
}

/// The answer of a run of 0.0 that is given a budget, and its steps.
fn run(program: &Program, budget: Steps) -> (Answer, Steps) {
    let words: [Integer; 0] = [];
    let begun = State::begin(program, HIGHEST, 0, 0, &words, &[0; BUFFER]);
    let state = begun.expect("a run begins");
    let (_, answer, steps) = state.budget(program, budget, &mut [0; BUFFER]);
    (answer, steps)
}

#[test]
fn a_run_of_an_exact_image_takes_as_many_steps_as_its_bound() {
    for steps in (2..600).chain([1_000, 4_999, 50_000]) {
        let program = Program::accept(&exact(steps)).expect("an accepted image");
        let expected = Some(Bound::Steps(steps as Steps));
        assert_eq!(bound_of(&program, 0, 0), expected, "{steps}");
        let (answer, taken) = run(&program, Steps::MAX);
        assert!(matches!(answer, Answer::Ended(_)), "{steps}: {answer:?}");
        assert_eq!(u64::from(taken), steps);
    }
}

#[test]
fn an_exact_image_may_be_large() {
    for (steps, bound) in [
        (u64::from(Steps::MAX), Bound::Steps(Steps::MAX)),
        (u64::from(Steps::MAX) + 1, Bound::Large),
        (u64::MAX, Bound::Large),
    ] {
        let image = exact(steps);
        assert!(image.len() <= MAX_IMAGE);
        let rows = bounds_of(&image).expect("an accepted image");
        assert_eq!(rows.last().map(|row| row.bound), Some(bound), "{steps}");
    }
}
