//! `fir lint`: what an accepted image has and does not need.

mod marks;
mod promises;
mod reach;
mod registers;

use crate::command::Lint;
use crate::failure::{Failure, Status};
use crate::json::Json;
use crate::place::{beginning, version_name, Position};
use crate::refusal::{self, Refused};
use crate::running::answered;
use crate::several;
use crate::source::Source;
use crate::streams::Streams;
use library::{Entry, Verdict};
use reach::Reach;
use reference::program::{Program, Version};
use reference::record::Placed;
use reference::{Form, Instruction};

/// Something that an image does not need.
pub struct Finding {
    /// What is looked for, by the name that the help gives it.
    lint: &'static str,
    /// The offset of the record.
    offset: usize,
    /// Where to look in the text, if that is not the record.
    position: Option<Position>,
    /// What it is.
    words: String,
}

impl Finding {
    /// What is found at a record.
    fn at(lint: &'static str, offset: usize, words: String) -> Finding {
        Finding {
            lint,
            offset,
            position: None,
            words,
        }
    }

    /// The place in the text, if there is one.
    fn position(&self, source: &Source) -> Option<Position> {
        self.position.or_else(|| source.position(self.offset))
    }

    /// The line of the finding.
    fn line(&self, source: &Source) -> String {
        let otherwise = format!("{}: at {}: ", source.name, self.offset);
        let begin = beginning(&source.name, self.position(source), &otherwise);
        format!("{begin}{}: {}", self.lint, self.words)
    }

    /// The finding as an object.
    fn json(&self, source: &Source) -> Json {
        let mut fields = vec![
            ("file", Json::from(source.name.as_str())),
            ("lint", self.lint.into()),
            ("offset", self.offset.into()),
        ];
        fields.extend(Json::position(self.position(source)));
        fields.push(("words", self.words.as_str().into()));
        Json::Object(fields)
    }
}

/// Looks through all images that are asked for; the exit status.
pub fn all(asked: &Lint, streams: &mut Streams) -> Result<Status, Failure> {
    let object = asked.json.then_some("lint");
    several::each(&asked.files, object, streams, |source, streams| {
        one(asked, source, streams)
    })
}

/// Looks through an image, unless it is refused.
fn one(asked: &Lint, source: &Source, streams: &mut Streams) -> Result<Status, Failure> {
    let program = match accepted(source, &asked.entries) {
        Ok(program) => program,
        Err(refused) => {
            let line = match asked.json {
                true => refused_json(source, &refused).to_string(),
                false => refused.line_of_several(source),
            };
            return answered(Status::No, streams.line(&line));
        }
    };
    let findings = findings(source, &program, &asked.entries);
    for finding in &findings {
        let line = match asked.json {
            true => finding.json(source).to_string(),
            false => finding.line(source),
        };
        streams.line(&line)?;
    }
    Ok(match findings.len() {
        0 => Status::Yes,
        _ => Status::No,
    })
}

/// The program of an accepted image that has these entries.
fn accepted(source: &Source, entries: &[Entry]) -> Result<Program, Refused> {
    if let Verdict::Refused(no) = library::verdict(&source.image) {
        return Err(refusal::of_image(Form::Wide, source, no));
    }
    let program = Program::ordered(&source.image).unwrap_or(Program { versions: vec![] });
    let missing = |entry: &&Entry| program.version(entry.function, entry.version).is_none();
    match entries.iter().find(missing) {
        Some(&entry) => Err(refusal::of_entry(source, entry)),
        None => Ok(program),
    }
}

/// A refusal as an object.
fn refused_json(source: &Source, refused: &Refused) -> Json {
    let mut fields = vec![
        ("file", Json::from(source.name.as_str())),
        ("lint", "refused".into()),
    ];
    fields.extend(refused.json());
    Json::Object(fields)
}

/// All that is found in a program, in the order of the image.
fn findings(source: &Source, program: &Program, entries: &[Entry]) -> Vec<Finding> {
    let reach = Reach::new(program, entries);
    let mut findings = reach.uncalled();
    findings.extend(registers::unread(source, program, &reach));
    findings.extend(registers::overwritten(source, program));
    findings.extend(marks::high(program));
    findings.extend(promises::unforced(source, program));
    findings.sort_by_key(|finding| finding.offset);
    findings
}

/// All instructions of a version, with the numbers of their blocks.
fn instructions(version: &Version) -> impl Iterator<Item = (usize, &Placed<Instruction>)> {
    let blocks = version.blocks.iter().enumerate();
    blocks.flat_map(|(number, block)| {
        block
            .instructions
            .iter()
            .map(move |placed| (number, placed))
    })
}

/// A version's numbers with its word: `version 1.0`.
fn named(version: &Version) -> String {
    format!("version {}", version_name(version))
}
