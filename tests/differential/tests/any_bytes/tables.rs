//! Tables of any bytes, and images of any bytes beside them.

use crate::both::read;
use crate::{Both, Given};
use definitions::State;
use differential::snapshot::{meaning, untouched};
use generator::{accepted, Random, Tally};
use library::{Entry, Program, Run, FACTORY};

/// The bytes of a table before its records, and of a record.
const RECORDS: usize = 2304;
const RECORD: usize = 8;

/// The bytes that say where versions stand, and those of the blocks of a version.
const VERSIONS: usize = 256;
const BLOCKS: usize = 16;

/// A byte of a table that a run of an image mostly looks at.
fn looked_at(given: &Given, table: &[u8], random: &mut Random) -> usize {
    let number = 4 * given.entry.0 + given.entry.1;
    let used = table.len().saturating_sub(RECORDS).max(1);
    match random.below(10) {
        0 => random.below(VERSIONS),
        1 => 2 * number + random.below(2),
        2 => VERSIONS + BLOCKS * number + random.below(BLOCKS),
        3..=5 => RECORDS + random.below(used.min(20 * RECORD)),
        _ => RECORDS + random.below(used),
    }
}

/// Changes a few bytes.
fn change(bytes: &mut [u8], random: &mut Random, at: impl Fn(&[u8], &mut Random) -> usize) {
    for _ in 0..random.pick(&[1, 1, 2, 4, 10]) {
        let place = at(bytes, random);
        if let Some(byte) = bytes.get_mut(place) {
            let near = byte.wrapping_add(random.pick(&[1, 255, 2, 8, 16]));
            let kind = 17 + random.below(20) as u8;
            let any = random.byte();
            *byte = random.pick(&[near, near, kind, 0, 1, any]);
        }
    }
}

/// An image and a table that are no pair, and what they are.
fn pair(given: &Given, random: &mut Random) -> (&'static str, Program) {
    let (mut image, mut table) = (given.image.clone(), given.program.table().to_vec());
    let sorts = [(10, "noise"), (40, "changed"), (10, "cut"), (10, "longer")];
    let others = [(10, "another image"), (20, "a changed image")];
    let sort = random.weighted(&[&sorts[..], &others].concat());
    match sort {
        "noise" => {
            let length = random.pick(&[0, 1, 255, 300, RECORDS, 3000, 5000]);
            table = (0..length).map(|_| random.byte()).collect();
        }
        "changed" => change(&mut table, random, |table, random| {
            looked_at(given, table, random)
        }),
        "cut" => {
            let kept = random.below(table.len());
            let most = RECORDS.max(kept);
            table.truncate(random.pick(&[kept, most, most]));
        }
        "longer" => {
            table.extend((0..RECORD * 60).map(|_| random.byte()));
            let block = VERSIONS + BLOCKS * (4 * given.entry.0 + given.entry.1);
            let record = random.below(given.image.len() / 6 + 30) as u16;
            table[block..block + 2].copy_from_slice(&record.to_le_bytes());
        }
        "another image" => image = accepted(random.number() % 200),
        _ => change(&mut image, random, |image, random| {
            random.below(image.len())
        }),
    }
    (sort, Program::of_any_bytes(image, table))
}

/// Begins a run on both sides; its state, if it begins.
fn begin(
    program: &Program,
    given: &Given,
    random: &mut Random,
    met: &mut Tally<String>,
) -> Option<library::State> {
    let (function, version) = match random.one_in(6) {
        true => (random.below(33), random.below(5)),
        false => given.entry,
    };
    let level = random.pick(&[0, 1, FACTORY, FACTORY, FACTORY, 200]);
    let places = random.pick(&[16, 16, 16, 16, 16, 15]);
    let mut words = given.words.clone();
    if random.one_in(6) {
        words.extend(vec![-1; random.below(30)]);
    }
    let entry = (function, version);
    let expected = State::begin(read(program), level, entry, &words, places);
    let mut run = Run::resume_with_its_own_program(untouched(), program);
    let entry = Entry { function, version };
    let found = run.restart(program, level, entry, &words, &vec![0; places]);
    let found = found.map_err(|no| (no.question, no.offset));
    let asked = expected.as_ref().map(|_| ()).map_err(|&no| (no, 0));
    let origin = given.case("begin");
    assert_eq!(asked, found, "{origin}: {words:?} of {entry:?} at {level}");
    match expected {
        Ok(expected) => {
            let different = expected.difference(&meaning(run.state()));
            assert_eq!(different, None, "{origin}: {words:?} of {entry:?}");
            met.meet("begin: begun".to_string());
            Some(run.state().clone())
        }
        Err(question) => {
            assert!(*run.state() == untouched(), "a refusal leaves the state");
            met.meet(format!("begin: refused by {question}"));
            None
        }
    }
}

/// A state of a run under the real table after some steps.
fn begun_before(given: &Given, random: &mut Random) -> Option<library::State> {
    let (function, version) = given.entry;
    let entry = Entry { function, version };
    let run = Run::begin(&given.program, FACTORY, entry, &given.words, &[0; 16]);
    let mut run = run.ok()?;
    run.budget(random.pick(&[0, 1, 3, 8, 30, 100]), &mut [0; 16]);
    Some(run.state().clone())
}

/// Runs an image and a table of any bytes on both sides.
pub fn run(given: &Given, random: &mut Random, met: &mut Tally<String>) {
    let (sort, program) = pair(given, random);
    met.meet(format!("table: {sort}"));
    let origin = given.case(sort);
    let begun = begin(&program, given, random, met);
    let state = begun.or_else(|| begun_before(given, random));
    let Some(state) = state else {
        met.meet("cases".to_string());
        return;
    };
    Both::new(&program, state, origin).follow(random, met);
}
