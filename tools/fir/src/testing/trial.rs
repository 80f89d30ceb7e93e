//! A test that is tried by the proved library: what came of it, and whether that is expected.

use super::line::{numbered, steps_of, Asked, ACCEPTED};
use crate::command::{Call, Then};
use crate::failure::{Failure, Status};
use crate::refusal::{self, Refused};
use crate::running::begin;
use crate::source::Source;
use crate::streams::Streams;
use crate::{telling, trace};
use library::{Program, Ran, Verdict, FIR_ITEMS};
use reference::Form;
use std::ffi::OsStr;
use std::fmt;
use std::path::Path;

/// What came of a test.
pub struct Came {
    /// How it ended, in the words of `fir run` or `fir check`.
    pub end: String,
    /// The offset of a refusal, or the number of accepted versions.
    pub number: Option<usize>,
    /// The steps that were taken; none where no run began.
    pub steps: Option<u32>,
    /// Why it is refused, where that is no place of a text.
    pub why: Option<String>,
    /// Where the run stands, why a place of a text is refused, and the images that the run did
    /// not come to.
    pub details: Vec<String>,
    /// Did the run come to all images that it was to go on under?
    pub is_whole: bool,
}

impl fmt::Display for Came {
    fn fmt(&self, formatter: &mut fmt::Formatter) -> fmt::Result {
        write!(formatter, "{}", numbered(&self.end, self.number))?;
        match self.steps {
            Some(steps) => write!(formatter, " after {}", steps_of(steps)),
            None => Ok(()),
        }
    }
}

/// Tries what is asked of a script, whose file is named; images that it names stand in the
/// folder of that file.
pub fn tried(
    source: &Source,
    file: &OsStr,
    asked: &Asked,
    streams: &mut Streams,
) -> Result<Came, Failure> {
    match asked {
        Asked::Check => Ok(checked(source)),
        Asked::Run(call) => {
            let mut images = Vec::new();
            for then in &call.then {
                images.push((image(file, then, streams)?, then.step));
            }
            Ok(ran(source, call, &images))
        }
    }
}

/// An image that a run is to go on under.
fn image(script: &OsStr, then: &Then, streams: &mut Streams) -> Result<Source, Failure> {
    let folder = Path::new(script).parent().unwrap_or(Path::new(""));
    Source::read(folder.join(&then.file).as_os_str(), streams)
}

/// What the questions to an image come to.
fn checked(source: &Source) -> Came {
    match library::verdict(&source.image) {
        Verdict::Accepted { versions, .. } => Came {
            end: ACCEPTED.to_string(),
            number: Some(versions),
            steps: None,
            why: None,
            details: Vec::new(),
            is_whole: true,
        },
        Verdict::Refused(no) => {
            Came::refused(source, &refusal::of_image(Form::Wide, source, no), None)
        }
    }
}

/// What a run comes to, which goes on under further images after so many steps.
fn ran(source: &Source, call: &Call, images: &[(Source, u32)]) -> Came {
    let mut run = match begin(source, call) {
        Ok(run) => run,
        Err(refused) => return Came::refused(source, &refused, None),
    };
    let (mut in_force, mut steps, mut left) = (source, 0, images);
    while let Some(((next, step), behind)) = left.split_first() {
        let budget = (*step).min(call.budget).saturating_sub(steps);
        steps += run.budget(budget, &mut [0; FIR_ITEMS]).steps;
        if steps < *step {
            break;
        }
        let program = Program::load(&next.image[..]);
        if let Err(no) = program.and_then(|program| run.change(program)) {
            let refused = refusal::of_change(in_force, next, no, run.state());
            return Came::refused(next, &refused, Some(steps));
        }
        (in_force, left) = (next, behind);
    }
    let mut buffer = [0; FIR_ITEMS];
    let ran = run.budget(call.budget.saturating_sub(steps), &mut buffer);
    let Ran { answer, .. } = ran;
    let done = telling::status(answer) == Status::Yes;
    let standing = trace::standing(in_force, &run).filter(|_| !done);
    let stands = standing.map(|standing| standing.line(in_force));
    let not_reached = left
        .iter()
        .map(|(image, step)| format!("  not reached: {}@{step}", image.name));
    Came {
        end: telling::words_of(answer, &buffer),
        number: None,
        steps: Some(steps + ran.steps),
        why: None,
        details: stands.into_iter().chain(not_reached).collect(),
        is_whole: left.is_empty(),
    }
}

impl Came {
    /// A refusal of a source's image, of a run or of a change after so many steps.
    fn refused(source: &Source, refused: &Refused, steps: Option<u32>) -> Came {
        let placed = refused.position.is_some();
        let (why, line) = (refused.words.clone(), refused.line(source));
        Came {
            end: format!("refused by {}", refused.no.question),
            number: Some(refused.no.offset),
            steps,
            why: (!placed).then_some(why),
            details: placed.then_some(line).into_iter().collect(),
            is_whole: true,
        }
    }
}
