//! `fir move`: stored images from one form to the other, each to a file of its own.

use crate::command::Move;
use crate::failure::{Failure, Status};
use crate::number::many;
use crate::refusal;
use crate::source::{self, Source};
use crate::streams::Streams;
use crate::writing::{self, Files};
use library::{Form, Refusal, FIR_IMAGE_BYTES};
use std::ffi::{OsStr, OsString};
use std::fs;
use std::path::{Path, PathBuf};

/// A form in the words of the reference.
pub fn form_of(form: Form) -> reference::Form {
    match form {
        Form::Narrow => reference::Form::Narrow,
        Form::Wide => reference::Form::Wide,
    }
}

/// An image that is to be moved, and the file that is written.
struct Planned<'f> {
    file: &'f OsStr,
    out: PathBuf,
}

/// What became of an image, with the line that says so.
enum Done {
    Moved(String),
    Refused(String),
}

/// How many images came to what.
#[derive(Default)]
struct Count {
    moved: usize,
    refused: usize,
    failed: usize,
}

impl Count {
    /// Counts what became of an image.
    fn meet(&mut self, done: &Result<Done, Failure>) {
        match done {
            Ok(Done::Moved(_)) => self.moved += 1,
            Ok(Done::Refused(_)) => self.refused += 1,
            Err(failure) if failure.status() == Status::No => self.refused += 1,
            Err(_) => self.failed += 1,
        }
    }

    /// The line at the end: `3 moved, 1 refused`.
    fn line(&self) -> String {
        let line = format!("{} moved, {} refused", self.moved, self.refused);
        match self.failed {
            0 => line,
            failed => format!("{line}, {failed} not read or written"),
        }
    }

    /// The exit status.
    fn status(&self) -> Status {
        match (self.failed, self.refused) {
            (0, 0) => Status::Yes,
            (0, _) => Status::No,
            _ => Status::Usage,
        }
    }
}

/// Moves all images that are asked for; the exit status.
pub fn all(asked: &Move, streams: &mut Streams) -> Result<Status, Failure> {
    let planned = plan(asked)?;
    let several = planned.len() > 1;
    let mut count = Count::default();
    for (index, each) in planned.iter().enumerate() {
        if several {
            let shown = format!("moving {} of {}", index + 1, planned.len());
            heard(streams.progress(&shown))?;
        }
        let done = one(each, asked.to, streams);
        count.meet(&done);
        if several {
            heard(streams.progress(""))?;
        }
        match done {
            Ok(Done::Moved(line) | Done::Refused(line)) => heard(streams.line(&line))?,
            Err(failure) => failure.tell(streams),
        }
    }
    if several {
        heard(streams.line(&count.line()))?;
    }
    Ok(count.status())
}

/// Goes on where nobody reads what is said.
fn heard(told: Result<(), Failure>) -> Result<(), Failure> {
    match told {
        Err(Failure::Closed) => Ok(()),
        told => told,
    }
}

/// Which file each image is written to; a failure where one would be written over.
fn plan(asked: &Move) -> Result<Vec<Planned<'_>>, Failure> {
    let wrong = |reason: String| Failure::Usage(Some("move"), reason);
    let folder = asked.files.len() > 1 || Path::new(&asked.out).is_dir();
    let planned: Result<Vec<Planned>, String> = asked
        .files
        .iter()
        .map(|file| {
            Ok(Planned {
                file,
                out: out_of(file, &asked.out, folder)?,
            })
        })
        .collect();
    let planned = planned.map_err(wrong)?;
    let mut files = Files::read(planned.iter().map(|each| each.file));
    let mut outs = planned.iter().map(|each| &each.out);
    outs.try_for_each(|out| files.write(out)).map_err(wrong)?;
    if asked.files.len() > 1 {
        let folder = Path::new(&asked.out);
        fs::create_dir_all(folder).map_err(|error| writing::cannot(folder, error))?;
    }
    Ok(planned)
}

/// The file that an image is written to.
fn out_of(file: &OsStr, out: &OsString, folder: bool) -> Result<PathBuf, String> {
    let mut path = PathBuf::from(out);
    if folder {
        let name = Path::new(file).file_name().filter(|_| file != "-");
        let named = name.ok_or_else(|| format!("{} has no name in a folder", source::name(file)));
        path.push(named?);
    }
    source::ask_bytes(&path)?;
    Ok(path)
}

/// Moves an image, unless it is refused.
fn one(planned: &Planned, to: Form, streams: &mut Streams) -> Result<Done, Failure> {
    let source = Source::read(planned.file, streams)?;
    let name = source::name(planned.file);
    match moved(&source.image, to) {
        Ok(bytes) => {
            writing::whole(&planned.out, &bytes)?;
            let (out, bytes) = (planned.out.display(), many(bytes.len(), "byte"));
            Ok(Done::Moved(format!("{name}: moved to {out}, {bytes}")))
        }
        Err(no) => {
            let refused = refusal::of_move(form_of(to).other(), &source, no);
            Ok(Done::Refused(refused.line_of_several(&source)))
        }
    }
}

/// The bytes of an image that is moved to a form.
fn moved(image: &[u8], to: Form) -> Result<Vec<u8>, Refusal> {
    let mut bytes = vec![0; FIR_IMAGE_BYTES];
    let length = match to {
        Form::Narrow => library::narrow(image, &mut bytes),
        Form::Wide => library::widen(image, &mut bytes),
    }?;
    bytes.truncate(length);
    Ok(bytes)
}
