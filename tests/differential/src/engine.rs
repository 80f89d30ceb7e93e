//! The proved library's answers in the words of the reference. Each run is held to the
//! bound of its entry.

use crate::paced::{steps_of, Paced};
use crate::snapshot::{untouched, FILLING};
use library::{At, Entry, Loaded, Program, Ran, Run, Trail, FIR_ROWS, ROW_NUMBERS};
use reference::bounds::Steps;
use reference::longest::Row;
use reference::{
    Answer, Bound, End, Form, Integer, Mended, Position, Refusal, Said, Unjoined, Verdict,
};

/// The proved library's verdict on an image.
pub fn verdict(image: &[u8]) -> Verdict {
    verdict_of(library::verdict(image))
}

/// The same in a form.
pub fn verdict_in(form: Form, image: &[u8]) -> Verdict {
    verdict_of(library::verdict_in(image, form_of(form)))
}

/// What the proved library writes of an image in a form; none where the places do
/// not suffice.
pub fn report_in(form: Form, image: &[u8], places: usize) -> Option<Vec<u8>> {
    let mut text = vec![0; places];
    let length = library::report_in(image, form_of(form), &mut text)?;
    text.truncate(length);
    Some(text)
}

/// Moves an image of a form into a buffer; its length there.
pub fn move_from(form: Form, image: &[u8], out: &mut [u8]) -> Result<usize, Refusal> {
    let moved = match form {
        Form::Narrow => library::widen(image, out),
        Form::Wide => library::narrow(image, out),
    };
    moved.map_err(refusal)
}

/// Joins two images into a buffer; the length of the joined image.
pub fn join(first: &[u8], second: &[u8], out: &mut [u8]) -> Result<usize, Unjoined> {
    library::join(first, second, out).map_err(|no| match no {
        library::Unjoined::First(no) => Unjoined::First(refusal(no)),
        library::Unjoined::Second(no) => Unjoined::Second(refusal(no)),
        library::Unjoined::Together(no) => Unjoined::Together(refusal(no)),
    })
}

/// What can be done for an image.
pub fn mend(image: &[u8]) -> Mended {
    match library::mend(image) {
        library::Mended::Accepted { versions } => Mended::Accepted(versions),
        library::Mended::Refused(no) => Mended::Refused(refusal(no)),
        library::Mended::Byte {
            refusal: no,
            offset,
            value,
        } => Mended::Byte {
            refusal: refusal(no),
            offset,
            value,
        },
        library::Mended::Unmended(no) => Mended::Unmended(refusal(no)),
    }
}

/// Writes the rows of an image; how many they are.
pub fn bounds_into(
    image: &[u8],
    numbers: &mut [u8; ROW_NUMBERS],
    steps: &mut [u64; FIR_ROWS],
) -> Result<usize, Refusal> {
    library::bounds_into(image, numbers, steps).map_err(refusal)
}

/// The versions of an image with their bounds.
pub fn bounds(image: &[u8]) -> Result<Vec<Row>, Refusal> {
    let rows = library::bounds(image).map_err(refusal)?;
    let row = |row: library::Row| Row {
        function: row.function,
        version: row.version,
        bound: match row.bound {
            library::Bound::Steps(steps) => Bound::Steps(steps),
            library::Bound::Large => Bound::Large,
            library::Bound::None => Bound::None,
        },
    };
    Ok(rows.into_iter().map(row).collect())
}

/// A form as the library names it.
fn form_of(form: Form) -> library::Form {
    match form {
        Form::Narrow => library::Form::Narrow,
        Form::Wide => library::Form::Wide,
    }
}

/// A verdict.
fn verdict_of(verdict: library::Verdict) -> Verdict {
    match verdict {
        library::Verdict::Accepted { versions } => Verdict::Accepted(versions),
        library::Verdict::Refused(no) => Verdict::Refused(refusal(no)),
    }
}

/// A state that nothing was written to, under a program of no bytes.
pub fn nothing_begun() -> Run<'static> {
    Run::resume_with_its_own_program(untouched(), Program::of_any_bytes([], []))
}

/// Loads an image. Where it is refused, the table has no version, and no run begins of it.
#[track_caller]
pub fn load(image: &[u8]) -> Result<Program, Refusal> {
    let mut table = vec![FILLING; library::table_size(image.len())];
    let loaded = library::load(image, &mut table);
    let program = Program::of_any_bytes(image, table);
    let Loaded::Refused(no) = loaded else {
        let ready = matches!(loaded, Loaded::Ready { .. });
        assert!(ready, "{loaded:?} for a table that is long enough");
        return Ok(program);
    };
    let entry = Entry {
        function: 0,
        version: 0,
    };
    let begun = Run::begin(&program, usize::MAX, entry, &[], &[]).err();
    let question = begun.map(|no| no.question);
    assert_eq!(question, Some(11), "a run of an image that is refused");
    Err(refusal(no))
}

/// Loads an image and begins a run at a level; it stands before its first step, or is
/// untouched and refused. What its memory held before makes no difference.
#[track_caller]
pub fn begin(
    image: &[u8],
    level: usize,
    (function, version): (usize, usize),
    words: &[Integer],
    buffer: &[Integer],
) -> (Paced<'static>, Result<(), Refusal>) {
    let mut run = nothing_begun();
    let entry = Entry { function, version };
    let begun = load(image).and_then(|program| {
        let elsewhere = Run::begin(&program, level, entry, words, buffer);
        let begun = run.restart(program.clone(), level, entry, words, buffer);
        assert_eq!(elsewhere.as_ref().err(), begun.as_ref().err());
        if let Ok(elsewhere) = elsewhere {
            let same = elsewhere.state() == run.state();
            assert!(same, "a begun state in memory that held something else");
        }
        begun.map_err(refusal)
    });
    let paced = match begun {
        Ok(()) => Paced::begun(run, (function, version), 0),
        Err(_) => Paced::free(run),
    };
    (paced, begun)
}

/// Takes a single step; what it says.
#[track_caller]
pub fn step(run: &mut Paced) -> Said {
    let goes_on = run.goes_on();
    run.stepped(|run| said_of(run.step()), |&said| steps_of(goes_on, said))
}

/// Takes at most so many steps; the answer, and the steps taken.
#[track_caller]
pub fn budget(run: &mut Paced, budget: Steps, buffer: &mut [Integer]) -> (Answer, Steps) {
    let Ran { answer, steps } =
        run.stepped(|run| run.budget(budget, buffer), |ran| ran.steps.into());
    (answer_of(answer), steps)
}

/// Goes on under another image, or under the old one where that is refused.
#[track_caller]
pub fn change(run: &mut Paced, image: &[u8]) -> Result<(), Refusal> {
    let answer = run.may_change(image).map_err(refusal);
    let loaded = load(image);
    match (answer, loaded) {
        (Ok(()), Ok(program)) => {
            let changed = run.changed(|run| run.change(program));
            assert_eq!(changed, Ok(()), "a change that is asked for again");
        }
        (Err(no), Ok(_)) => assert_eq!(no.number, 15, "of an image that is loaded"),
        (answer, Err(no)) => assert_eq!(answer, Err(no), "of an image that is refused"),
    }
    answer
}

/// Takes a single step of a run with its start kept; what it says.
pub fn step_on(trail: &mut Trail) -> Said {
    said_of(trail.step())
}

/// Takes at most so many steps of it; the answer, and the steps taken.
pub fn budget_on(trail: &mut Trail, budget: Steps, buffer: &mut [Integer]) -> (Answer, Steps) {
    let Ran { answer, steps } = trail.budget(budget, buffer);
    (answer_of(answer), steps)
}

/// Goes on under another image, or under the old one where that is refused. What refuses
/// it is what refuses it without a trail.
#[track_caller]
pub fn change_on(trail: &mut Trail, image: &[u8]) -> Result<(), Refusal> {
    let asked = trail.may_change(image).map_err(refusal);
    let answer = match load(image) {
        Ok(program) => trail.change(program).map_err(refusal),
        Err(_) => {
            let refused = Program::of_any_bytes(image, []);
            trail.change(refused).map_err(refusal)
        }
    };
    assert_eq!(asked, answer, "a change with a trail, and without one");
    answer
}

/// Takes a step back, or says what refuses it.
pub fn back(trail: &mut Trail) -> Result<(), Refusal> {
    trail.back().map_err(refusal)
}

/// How many versions the DISPATCH looks at that the run stands at, and of how many.
pub fn search(run: &Run) -> Option<(u8, u8)> {
    let search = run.search()?;
    Some((search.looked as u8, search.versions as u8))
}

/// Where the run stands.
pub fn position(run: &Run) -> Option<Position> {
    let position = run.position()?;
    Some(Position {
        function: position.function,
        version: position.version,
        block: position.block,
        instruction: position.instruction.into(),
        at_end: position.at == At::BlockEnd,
        offset: position.offset,
    })
}

/// Loads an image and runs it from its start at a level; its answer, and the steps taken.
/// The run is untouched where it is refused.
#[track_caller]
pub fn run(
    image: &[u8],
    level: usize,
    (function, version): (usize, usize),
    words: &[Integer],
    budget: Steps,
    buffer: &mut [Integer],
) -> (Paced<'static>, Answer, Steps) {
    let mut run = nothing_begun();
    let entry = Entry { function, version };
    let program = match load(image) {
        Ok(program) => program,
        Err(no) => return (Paced::free(run), Answer::Refused(no), 0),
    };
    let ran = run.rerun(program, level, entry, words, budget, buffer);
    let paced = match ran.is_refused() {
        true => Paced::free(run),
        false => Paced::begun(run, (function, version), ran.steps),
    };
    (paced, answer_of(ran.answer), ran.steps)
}

/// What a step says.
pub fn said_of(said: library::Said) -> Said {
    match said {
        library::Said::GoesOn => Said::GoesOn,
        library::Said::Ended(how) => Said::Ended(end(how)),
        library::Said::Stuck => Said::Stuck,
    }
}

/// The answer to a budget.
pub fn answer_of(answer: library::Answer) -> Answer {
    match answer {
        library::Answer::Steps => Answer::Steps,
        library::Answer::Ended(how) => Answer::Ended(end(how)),
        library::Answer::Stuck => Answer::Stuck,
        library::Answer::Refused(no) => Answer::Refused(refusal(no)),
    }
}

/// How a run ended.
fn end(end: library::End) -> End {
    match end {
        library::End::Integer(value) => End::Integer(value),
        library::End::Vector(length) => End::Vector(length),
        library::End::Undef => End::Undef,
        library::End::Deep => End::Deep,
        library::End::Vectors => End::Vectors,
        library::End::Promises => End::Promises,
    }
}

/// A refusal by a question at an offset.
pub fn refusal(no: library::Refusal) -> Refusal {
    Refusal {
        number: no.question,
        offset: no.offset,
    }
}
