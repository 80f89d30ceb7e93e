//! The calls that are lent a pool, in the words of the reference.

use crate::engine::{answer_of, load, refusal, said_of};
use library::{Entry, Program, Run, Start, Store};
use reference::bounds::Steps;
use reference::pool;
use reference::{Answer, Integer, Refusal, Said};

/// The question that an entry exists, which refuses every run of an image that is not
/// loaded.
const ENTRY_QUESTION: u8 = 11;

/// The program of an image, which has no version where the image is refused.
fn program_of(image: &[u8]) -> (Program, Result<(), Refusal>) {
    match load(image) {
        Ok(program) => (program, Ok(())),
        Err(no) => (Program::of_any_bytes(image, []), Err(no)),
    }
}

/// What a run begins with, as the library names it.
fn start_of(start: &pool::Start) -> Start<'_> {
    let (function, version) = start.entry;
    Start {
        level: start.level,
        entry: Entry { function, version },
        words: &start.words,
    }
}

/// What a start of an image is refused by: where the image is, by its question in place of
/// the one that finds no entry there.
fn refused_by(no: library::Refusal, loaded: Result<(), Refusal>) -> Refusal {
    match loaded {
        Err(by_image) if no.question == ENTRY_QUESTION => by_image,
        _ => refusal(no),
    }
}

/// Loads an image and begins a run of it under a number.
pub fn begin(
    store: &mut Store,
    number: usize,
    run: &mut Run<'static>,
    start: &pool::Start,
    buffer: &[Integer],
) -> Result<(), Refusal> {
    let (program, loaded) = program_of(&start.image);
    let begun = store.begin(number, run, program, start_of(start), buffer);
    begun.map_err(|no| refused_by(no, loaded))
}

/// Loads an image and runs it under a number; the answer, and the steps taken.
pub fn run(
    store: &mut Store,
    number: usize,
    run: &mut Run<'static>,
    start: &pool::Start,
    budget: Steps,
    buffer: &mut [Integer],
) -> (Answer, Steps) {
    let (program, loaded) = program_of(&start.image);
    let ran = store.run(number, run, program, start_of(start), budget, buffer);
    match ran.answer {
        library::Answer::Refused(no) => (Answer::Refused(refused_by(no, loaded)), ran.steps),
        answer => (answer_of(answer), ran.steps),
    }
}

/// Takes a single step under a number.
pub fn step(store: &mut Store, number: usize, run: &mut Run) -> Result<Said, Refusal> {
    store.step(number, run).map(said_of).map_err(refusal)
}

/// Takes at most so many steps under a number; the answer, and the steps taken.
pub fn budget(
    store: &mut Store,
    number: usize,
    run: &mut Run,
    budget: Steps,
    buffer: &mut [Integer],
) -> (Answer, Steps) {
    let ran = store.budget(number, run, budget, buffer);
    (answer_of(ran.answer), ran.steps)
}

/// Goes on under another image, or under the old one where that is refused.
pub fn change(
    store: &Store,
    number: usize,
    run: &mut Run<'static>,
    image: &[u8],
) -> Result<(), Refusal> {
    let (program, _) = program_of(image);
    store.change(number, run, program).map_err(refusal)
}
