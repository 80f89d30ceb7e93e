//! `fir fmt`: texts laid out anew.

use crate::command::Formatting;
use crate::failure::{Failure, Status, Wrong};
use crate::place::Position;
use crate::running::answered;
use crate::source::{self, Source};
use crate::streams::Streams;
use crate::writing;
use std::ffi::OsStr;
use std::path::Path;

/// Lays out all texts that are asked for; the exit status.
pub fn all(asked: &Formatting, streams: &mut Streams) -> Result<Status, Failure> {
    let mut status = Status::Yes;
    for file in &asked.files {
        let found = match one(file, asked.check, streams) {
            Ok(found) => found,
            Err(Failure::Closed) => return Err(Failure::Closed),
            Err(failure) => {
                failure.tell(streams);
                failure.status()
            }
        };
        status = status.worse(found);
    }
    Ok(status)
}

/// Lays out a text, or says whether it would be another; the exit status.
fn one(file: &OsStr, check: bool, streams: &mut Streams) -> Result<Status, Failure> {
    let source = Source::read(file, streams)?;
    let Some(text) = &source.text else {
        let name = &source.name;
        return Err(Failure::File(format!(
            "{name}: holds an image's bytes, and no text; `fir dis` writes its text"
        )));
    };
    let anew = laid_out(&source, text)?;
    let differs = differing_line(text, &anew);
    match (differs, check) {
        (Some(line), true) => {
            let name = &source.name;
            let line = format!("{name}:{line}:1: is laid out otherwise by `fir fmt`");
            answered(Status::No, streams.line(&line))
        }
        (None, true) => Ok(Status::Yes),
        (_, false) if file == "-" => {
            streams.write(&source::bytes_of_text(&anew, source.is_marked))?;
            Ok(Status::Yes)
        }
        (None, false) => Ok(Status::Yes),
        (Some(_), false) => {
            let bytes = source::bytes_of_text(&anew, source.is_marked);
            writing::whole(Path::new(file), &bytes)?;
            let line = format!("{}: laid out anew", source.name);
            answered(Status::Yes, streams.line(&line))
        }
    }
}

/// The text laid out anew, which makes the same image.
fn laid_out(source: &Source, text: &str) -> Result<String, Failure> {
    let wrong = |error: text::Error| {
        Failure::Text(Wrong {
            name: source.name.clone(),
            position: Position {
                line: error.line,
                column: error.column,
            },
            reason: error.reason,
        })
    };
    let anew = text::lay_out(text).map_err(wrong)?;
    let image = text::assemble(&anew).map_err(wrong)?;
    assert_eq!(image, source.image, "the image stays the same");
    Ok(anew)
}

/// The first line in which two texts differ; none where they are the same.
fn differing_line(text: &str, anew: &str) -> Option<usize> {
    if text == anew {
        return None;
    }
    let lines = text.split_inclusive('\n').zip(anew.split_inclusive('\n'));
    let same = lines.take_while(|(old, new)| old == new).count();
    Some(same + 1)
}
