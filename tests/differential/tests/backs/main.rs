//! Steps back of the proved engine and of the reference, which keeps every state: under the
//! same lists of steps, budgets, changes of the image and steps back, every answer, the steps
//! that lie behind and the whole state agree.

mod edge;
mod pair;

use differential::engine;
use differential::parallel::in_parallel;
use generator::{accepted, entry, level, turns, words, Tally};
use library::Run;
use pair::Pair;
use reference::bounds::BUFFER;
use reference::watched::Watched;
use reference::{Program, State};

/// How many programs are generated.
const PROGRAMS: u64 = 14_000;

/// The fewest steps back that are taken, and that 20 refuses.
const FEWEST_TAKEN: usize = 100_000;
const FEWEST_REFUSED: usize = 10_000;

/// The fewest of some sorts: how the run stood before, and what came before it.
const FEWEST: [(&str, usize); 19] = [
    ("taken, Running", 80_000),
    ("taken, Integer", 10_000),
    ("taken, Vector", 5_000),
    ("taken, Undef", 3_000),
    ("taken, Deep", 1_000),
    ("taken, Vectors", 200),
    ("taken, Promises", 200),
    ("taken, in a run with a change", 20_000),
    ("taken, behind a change that was refused", 1_000),
    ("taken, behind another", 50_000),
    ("refused, at the start", 2_000),
    ("refused, behind a change that was taken", 2_000),
    ("refused, Running", 10_000),
    ("refused, Integer", 1_000),
    ("refused, Vector", 500),
    ("refused, Undef", 100),
    ("refused, Deep", 50),
    ("forward again", 5_000),
    ("changes taken", 8_000),
];

/// The ends that stop a run, and the fewest steps back behind a change at each.
const FEWEST_STOPPED: [(&str, usize); 2] = [("refused, Vectors", 10), ("refused, Promises", 10)];

/// A run that has begun.
struct Begun {
    image: Vec<u8>,
    program: Program,
    level: usize,
    state: State,
    run: Run<'static>,
}

/// The run of a seed on both sides; none where it does not begin.
fn begin(seed: u64) -> Option<Begun> {
    let image = accepted(seed);
    let program = Program::accept(&image).expect("an accepted image");
    let entry = entry(seed, &program)?;
    let (level, words) = (level(seed, &program, entry), words(seed, &program, entry));
    let (function, version) = entry;
    let state = State::begin(&program, level, function, version, &words, &[0; BUFFER]).ok()?;
    let (paced, begun) = engine::begin(&image, level, entry, &words, &[0; BUFFER]);
    assert_eq!(begun, Ok(()), "seed {seed}: a run begins");
    let run = Run::clone(&paced);
    Some(Begun {
        image,
        program,
        level,
        state,
        run,
    })
}

/// Does the turns of a seed on both sides; how many steps were tried.
fn visit(seed: u64, met: &mut Tally<String>) -> usize {
    let Some(begun) = begin(seed) else {
        return 0;
    };
    met.meet("begun".to_string());
    let origin = format!("seed {seed}");
    let watched = Watched::new(&begun.program, begun.state, begun.level, &origin);
    let mut pair = Pair::new(begun.image, watched, begun.run, origin);
    for turn in turns(seed) {
        pair.act(turn, met);
    }
    pair.tried()
}

/// Asserts that a thing is met at least so often.
#[track_caller]
fn assert_count(met: &Tally<String>, thing: &str, least: usize) {
    let count = met.count(thing);
    assert!(count >= least, "{thing}: {count}, expected {least}");
}

#[test]
fn a_step_back_gives_the_state_before() {
    if cfg!(feature = "stand_in") {
        println!("The reference stands in for the proved engine.");
    }
    let (met, steps) = in_parallel(PROGRAMS, visit);
    println!("{PROGRAMS} programs, {steps} steps tried before an end\n{met}");
    assert_count(&met, "taken", FEWEST_TAKEN);
    assert_count(&met, "refused", FEWEST_REFUSED);
    for (thing, least) in FEWEST.into_iter().chain(FEWEST_STOPPED) {
        assert_count(&met, thing, least);
    }
}

#[test]
fn past_the_most_steps_none_lies_behind() {
    let (met, _) = in_parallel(edge::PROGRAMS, |seed, met| {
        if let Some(begun) = begin(seed) {
            edge::cross(seed, begun, met);
            met.meet("begun".to_string());
        }
        0
    });
    println!("{met}");
    for (thing, least) in edge::FEWEST {
        assert_count(&met, thing, least);
    }
}
