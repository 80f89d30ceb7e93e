//! Runs that begin on both sides, or are refused by both.

use differential::engine;
use differential::lent::Lent;
use differential::paced::Paced;
use differential::snapshot::untouched;
use generator::{Random, Tally};
use library::Run;
use reference::bounds::{BUFFER, FUNCTIONS, ITEMS, VERSIONS_EACH};
use reference::{Integer, Level, Program, Refusal, State};

/// What a run begins with.
#[derive(Clone)]
pub struct Start<'i> {
    /// Its image.
    pub image: &'i [u8],
    /// The level that it states.
    pub level: usize,
    /// Its entry: function and version.
    pub entry: (usize, usize),
    /// Its argument words.
    pub words: Vec<Integer>,
    /// The places of the buffer that it is lent.
    pub places: usize,
}

/// Begins a run on both sides; the state of the reference and the run of the
/// proved engine, or the refusal.
#[track_caller]
pub fn begin(
    start: &Start,
    program: &Result<Program, Refusal>,
    origin: &str,
) -> Result<(State, Paced<'static>), Refusal> {
    let Start {
        image,
        level,
        entry,
        ref words,
        places,
    } = *start;
    let mut buffer = Lent::new(places, 0);
    let expected = program.as_ref().map_err(|&refusal| refusal);
    let expected = expected
        .and_then(|program| State::begin(program, level, entry.0, entry.1, words, buffer.places()));
    let (run, found) = engine::begin(image, level, entry, words, buffer.places());
    assert!(
        expected.as_ref().map(|_| ()).map_err(|&refusal| refusal) == found,
        "{origin}: beginning {entry:?} at level {level} with {words:?} and {places} places, \
         expected {:?}, the proved engine gives {found:?}\n{}",
        expected.err(),
        text::listing(image)
    );
    if found.is_err() {
        assert!(
            *run.state() == untouched(),
            "{origin}: a refused run leaves the state as it was"
        );
    }
    expected.map(|expected| (expected, run))
}

/// Begins a run with another level, another entry, other words or too few places, or
/// with several of these, so that the order of 11, 19, 12 and 13 is seen.
pub fn begin_wrongly(
    seed: u64,
    start: &Start,
    program: &Result<Program, Refusal>,
    met: &mut Tally<String>,
) {
    let mut random = Random::new(seed ^ 0x00C0_FFEE);
    let mut wrong = start.clone();
    if random.percent(60) {
        wrong.level = random.below(Level::ALL.len());
    }
    if random.percent(40) {
        wrong.entry = other_entry(&mut random, wrong.entry);
    }
    if random.percent(40) {
        wrong.words = other_words(&mut random, wrong.words);
    }
    if random.percent(50) {
        wrong.places = random.below(BUFFER);
    }
    if let Err(refusal) = begin(&wrong, program, &format!("seed {seed}")) {
        met.meet(format!("begin refused by {}", refusal.number));
        if refusal.number == 19 {
            let own = level_of(program, wrong.entry);
            met.meet(refused_at(own, wrong.level));
        }
    }
}

/// The level of an entry that exists.
pub fn level_of(program: &Result<Program, Refusal>, entry: (usize, usize)) -> Level {
    let program = program.as_ref().expect("an accepted image");
    let version = program.version(entry.0, entry.1);
    version.expect("the entry exists").level
}

/// The name of a refusal of an entry of a level at a level below it.
pub fn refused_at(own: Level, stated: usize) -> String {
    format!("19 for an entry of level {} at {stated}", own.0)
}

/// The name of a run that begins at an entry of a level, and states a level.
pub fn begun_at(own: Level, stated: usize) -> String {
    let above = usize::from(Level::FACTORY.0) + 1;
    let stated = match stated.min(above) {
        stated if stated == above => "a number above 2".to_string(),
        stated => stated.to_string(),
    };
    format!("begun at an entry of level {} at {stated}", own.0)
}

/// Asserts that the proved engine begins the run at each higher level in the state
/// that it begins in.
#[track_caller]
pub fn assert_same_at_higher_levels(start: &Start, begun: &Run, origin: &str) {
    let highest = usize::from(Level::FACTORY.0);
    let higher = [
        start.level.saturating_add(1),
        highest,
        highest + 1,
        usize::MAX,
    ];
    let mut buffer = Lent::new(start.places, 0);
    for level in higher.into_iter().filter(|&level| level > start.level) {
        let (run, found) = engine::begin(
            start.image,
            level,
            start.entry,
            &start.words,
            buffer.places(),
        );
        assert_eq!(found, Ok(()), "{origin} at {level}");
        assert!(run.state() == begun.state(), "{origin} at {level}");
    }
}

/// Numbers of an entry that mostly does not exist.
fn other_entry(random: &mut Random, (function, version): (usize, usize)) -> (usize, usize) {
    random.pick(&[
        (function, VERSIONS_EACH),
        (function, VERSIONS_EACH - 1),
        (function + 1, version),
        (FUNCTIONS - 1, version),
        (FUNCTIONS, version),
        (function + 256, version),
        (function, version + 256),
        (function + (1 << 32), version),
        (usize::MAX, usize::MAX),
    ])
}

/// Words with one thing wrong: too many, too few, or a head that none is.
fn other_words(random: &mut Random, mut words: Vec<Integer>) -> Vec<Integer> {
    match random.below(4) {
        0 => words.push(random.pick(&[-1, 0, 1, 16])),
        1 => drop(words.pop()),
        2 => words = vec![-1; random.below(40)],
        _ => {
            let low_bits_fit =
                random.pick(&[(1 << 32) - 1, 1 << 32, (1 << 32) + 1, -(1 << 32) - 1]);
            let heads = [
                -2,
                ITEMS as Integer + 1,
                Integer::MIN,
                Integer::MAX,
                low_bits_fit,
            ];
            words.insert(0, random.pick(&heads));
        }
    }
    words
}
