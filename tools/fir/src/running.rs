//! `fir run` and `fir trace`: a run from its start, by budgets or step by step, and
//! the images that it goes on under.

use crate::arguments::words;
use crate::bounds;
use crate::command::Call;
use crate::failure::{Failure, Status};
use crate::page::Recorder;
use crate::refusal::{self, Refused};
use crate::source::{self, Source};
use crate::stats::Stats;
use crate::streams::Streams;
use crate::telling::{self, Ending, Format, Tried, Unread};
use crate::trace;
use crate::writing;
use library::{Program, Ran, Refusal, Run, FIR_ITEMS};
use std::ffi::{OsStr, OsString};
use std::path::Path;

/// How the steps of a run are taken.
#[derive(Clone, Copy, PartialEq, Eq, Debug)]
pub enum Manner<'a> {
    /// By budgets: nothing is printed of them.
    Budgets,
    /// One by one: what they were is counted.
    Counted,
    /// One by one: each is printed.
    Steps,
    /// One by one: a page that shows them is written to a file.
    Page(&'a OsStr),
}

/// How a run is done and shown.
#[derive(Clone, Copy, PartialEq, Eq, Debug)]
pub struct Showing<'a> {
    /// How its steps are taken.
    pub manner: Manner<'a>,
    /// How things are printed.
    pub format: Format,
    /// Are the sums of its steps printed, which a manner other than budgets counts?
    pub stats: bool,
}

/// An image that a run is to go on under.
struct Next {
    source: Source,
    /// After how many steps.
    step: u32,
}

/// The images of a run.
struct Images {
    first: Source,
    /// Those that it is to go on under.
    changes: Vec<Next>,
}

/// The image of a file, or why there is none.
fn read(file: &OsStr, streams: &mut Streams) -> Result<Source, Unread> {
    Source::read(file, streams).map_err(|failure| Unread {
        name: source::name(file),
        failure,
    })
}

/// Asks that a page is not written to a file that is read.
fn ask_page_apart(call: &Call, manner: Manner) -> Result<(), Failure> {
    let Manner::Page(page) = manner else {
        return Ok(());
    };
    let files = call.then.iter().map(|then| &then.file).chain([&call.file]);
    writing::ask_apart("trace", files.map(OsString::as_os_str), page)
}

/// Begins a run that is asked for, of the image of its file.
pub fn begin(source: &Source, call: &Call) -> Result<Run<'static>, Refused> {
    let (words, buffer) = (words(&call.arguments), [0; FIR_ITEMS]);
    Program::load(&source.image[..])
        .and_then(|program| Run::begin(program, call.level, call.entry, &words, &buffer))
        .map_err(|no| refusal::of_run(source, no, call))
}

/// Does a run that is asked for; the exit status.
pub fn run(call: &Call, showing: Showing, streams: &mut Streams) -> Result<Status, Failure> {
    ask_page_apart(call, showing.manner)?;
    match Images::read(call, streams) {
        Ok(images) => images.run(call, showing, streams),
        Err(unread) => showing.format.failed(unread, streams),
    }
}

impl Images {
    /// Reads the images of a run.
    fn read(call: &Call, streams: &mut Streams) -> Result<Images, Unread> {
        let first = read(&call.file, streams)?;
        let mut changes = Vec::new();
        for then in &call.then {
            changes.push(Next {
                source: read(&then.file, streams)?,
                step: then.step,
            });
        }
        Ok(Images { first, changes })
    }

    /// Does the run; the exit status.
    fn run(&self, call: &Call, showing: Showing, streams: &mut Streams) -> Result<Status, Failure> {
        let Images { first, changes } = self;
        let run = match begin(first, call) {
            Ok(run) => run,
            Err(refused) => {
                let told = showing.format.refused(first, &refused, streams);
                return answered(Status::No, told);
            }
        };
        let mut going = Going::new(first, run, call, showing);
        for (index, next) in changes.iter().enumerate() {
            going.go_to(next.step.min(call.budget), streams)?;
            if going.steps < next.step {
                return going.finish(&changes[index..], streams);
            }
            if let Err(refused) = going.change(&next.source, streams)? {
                return going.leave(&refused, &next.source, streams);
            }
        }
        going.go_to(call.budget, streams)?;
        going.finish(&[], streams)
    }
}

/// A run that has begun.
struct Going<'s> {
    run: Run<'static>,
    /// The image in force.
    source: &'s Source,
    /// The steps taken so far.
    steps: u32,
    /// How they are taken and shown.
    showing: Showing<'s>,
    /// What is counted of them, if it is.
    stats: Stats,
    /// What the page shows, if there is one.
    recorder: Option<Recorder>,
}

impl<'s> Going<'s> {
    /// A run of an image before its first step.
    fn new(source: &'s Source, run: Run<'static>, call: &Call, showing: Showing<'s>) -> Going<'s> {
        let page = matches!(showing.manner, Manner::Page(_));
        let bound = showing
            .stats
            .then(|| bounds::of_entry(&source.image, call.entry));
        Going {
            recorder: page.then(|| Recorder::new(source, call, &run)),
            run,
            source,
            steps: 0,
            showing,
            stats: Stats::new(bound.flatten()),
        }
    }

    /// Takes steps until so many are taken in all, or the run has ended.
    fn go_to(&mut self, steps: u32, streams: &mut Streams) -> Result<(), Failure> {
        let (source, format) = (self.source, self.showing.format);
        let (run, stats, taken) = (&mut self.run, &mut self.stats, self.steps);
        self.steps = match self.showing.manner {
            Manner::Budgets => {
                let budget = steps.saturating_sub(taken);
                taken + run.budget(budget, &mut [0; FIR_ITEMS]).steps
            }
            Manner::Counted => stats.steps(run, taken, steps),
            Manner::Steps => trace::steps(run, &source.names, taken, steps, &mut |step, after| {
                stats.meet(step, after);
                format.step(source, step, after, streams)
            })?,
            Manner::Page(_) => {
                let recorder = &mut self.recorder;
                trace::steps(run, &source.names, taken, steps, &mut |step, after| {
                    stats.meet(step, after);
                    recorder
                        .iter_mut()
                        .for_each(|page| page.record(step, after));
                    Ok(())
                })?
            }
        };
        Ok(())
    }

    /// Goes on under another image, unless that is refused.
    fn change(
        &mut self,
        source: &'s Source,
        streams: &mut Streams,
    ) -> Result<Result<(), Refused>, Failure> {
        let program = Program::load(&source.image[..]);
        if let Err(no) = program.and_then(|program| self.run.change(program)) {
            return Ok(Err(self.refused(source, no)));
        }
        self.source = source;
        self.stats.change();
        let state = self.run.state();
        let page = self.recorder.iter_mut();
        page.for_each(|page| page.change(source, state));
        let tried = self.tried(source);
        let format = self.showing.format;
        format.changed(&tried, None, streams).map(Ok)
    }

    /// Why another image is refused.
    fn refused(&self, new: &Source, no: Refusal) -> Refused {
        refusal::of_change(self.source, new, no, self.run.state())
    }

    /// Another image that is tried now.
    fn tried<'r>(&self, new: &'r Source) -> Tried<'r> {
        let steps = self.steps;
        Tried { steps, new }
    }

    /// Prints that another image is refused, and where the run stands; the exit status.
    fn leave(
        mut self,
        refused: &Refused,
        new: &Source,
        streams: &mut Streams,
    ) -> Result<Status, Failure> {
        let tried = self.tried(new);
        let format = self.showing.format;
        let told = format.changed(&tried, Some(refused), streams);
        let mut buffer = [0; FIR_ITEMS];
        let ending = self.ending(&[], &mut buffer);
        let told = told.and_then(|()| format.left(&ending, streams));
        self.write_page(&refused.plain())?;
        answered(Status::No, told)
    }

    /// Prints how the run ended, and the images that it did not come to; the exit status.
    fn finish(mut self, left: &[Next], streams: &mut Streams) -> Result<Status, Failure> {
        let format = self.showing.format;
        let mut buffer = [0; FIR_ITEMS];
        let ending = self.ending(left, &mut buffer);
        let status = telling::status(ending.answer);
        let result = telling::words_of(ending.answer, ending.buffer);
        let told = format.ended(&ending, streams);
        self.write_page(&result)?;
        answered(status, told)
    }

    /// Writes the page of the run, which came to this, if one is asked for.
    fn write_page(self, result: &str) -> Result<(), Failure> {
        match (self.showing.manner, self.recorder) {
            (Manner::Page(file), Some(recorder)) => {
                writing::whole(Path::new(file), recorder.page(result).as_bytes())
            }
            _ => Ok(()),
        }
    }

    /// How the run ended, or where it stands.
    fn ending<'r>(&'r mut self, left: &[Next], buffer: &'r mut [i64]) -> Ending<'r> {
        let Ran { answer, .. } = self.run.budget(0, buffer);
        let done = telling::status(answer) == Status::Yes;
        let standing = trace::standing(self.source, &self.run);
        Ending {
            answer,
            buffer,
            steps: self.steps,
            source: self.source,
            standing: standing.filter(|_| !done),
            left: left.iter().map(Next::named).collect(),
            stats: self.showing.stats.then_some(&self.stats),
        }
    }
}

impl Next {
    /// The image and its step: `new.fir@100`.
    fn named(&self) -> String {
        format!("{}@{}", self.source.name, self.step)
    }
}

/// A status that stands even where nobody read the answer.
pub fn answered(status: Status, told: Result<(), Failure>) -> Result<Status, Failure> {
    match told {
        Ok(()) | Err(Failure::Closed) => Ok(status),
        Err(failure) => Err(failure),
    }
}
