//! `fir check`: images put to the questions of a form.

use crate::command::Check;
use crate::failure::{Failure, Status};
use crate::json::Json;
use crate::mending::{self, Offer};
use crate::moving::form_of;
use crate::refusal::{self, Refused};
use crate::running::answered;
use crate::source::{self, Source};
use crate::streams::Streams;
use library::{Form, Verdict};

/// What became of a file.
struct Checked {
    /// What it is called.
    name: String,
    found: Found,
}

/// What was found of it.
enum Found {
    /// It is accepted, with the text that the library reports.
    Accepted(String),
    /// It is refused, with what can be done for it.
    Refused(Box<(Source, Refused, Offer)>),
    /// It has no image: it cannot be read, or does not assemble.
    Failed(Failure),
}

/// How many files came to what.
#[derive(Default)]
struct Count {
    accepted: usize,
    refused: usize,
    failed: usize,
}

impl Count {
    /// Counts a file.
    fn meet(&mut self, checked: &Checked) {
        match &checked.found {
            Found::Accepted(_) => self.accepted += 1,
            Found::Failed(failure) if failure.status() == Status::Usage => self.failed += 1,
            Found::Refused(..) | Found::Failed(_) => self.refused += 1,
        }
    }

    /// The line at the end: `3 accepted, 1 refused`.
    fn line(&self) -> String {
        let line = format!("{} accepted, {} refused", self.accepted, self.refused);
        match self.failed {
            0 => line,
            failed => format!("{line}, {failed} not read"),
        }
    }

    /// The exit status.
    fn status(&self) -> Status {
        match (self.failed, self.refused) {
            (0, 0) => Status::Yes,
            (0, _) => Status::No,
            _ => Status::Usage,
        }
    }
}

/// Checks all images that are asked for; the exit status.
pub fn all(asked: &Check, streams: &mut Streams) -> Result<Status, Failure> {
    let several = asked.files.len() > 1;
    let mut count = Count::default();
    for file in &asked.files {
        let checked = Checked {
            name: source::name(file),
            found: match Source::read(file, streams) {
                Ok(source) => look(source, asked),
                Err(failure) => Found::Failed(failure),
            },
        };
        count.meet(&checked);
        let told = match (asked.json, several) {
            (true, _) => streams.line(&checked.json().to_string()),
            (false, true) => checked.tell_of_several(streams),
            (false, false) => checked.tell(streams),
        };
        answered(Status::Yes, told)?;
    }
    if several && !asked.json {
        answered(Status::Yes, streams.line(&count.line()))?;
    }
    Ok(count.status())
}

/// Puts an image to the questions of a form.
fn look(source: Source, asked: &Check) -> Found {
    let form = asked.form;
    match library::verdict_in(&source.image, form) {
        Verdict::Accepted { .. } => Found::Accepted(report(&source.image, form)),
        Verdict::Refused(no) => {
            let refused = refusal::of_image(form_of(form), &source, no);
            let offer = match asked.mend && form == Form::Wide {
                true => mending::offer(&source),
                false => Offer::NotSought,
            };
            Found::Refused(Box::new((source, refused, offer)))
        }
    }
}

/// The text that the library reports of an image in a form.
fn report(image: &[u8], form: Form) -> String {
    let mut text = vec![0; 2048];
    loop {
        if let Some(length) = library::report_in(image, form, &mut text) {
            return String::from_utf8_lossy(&text[..length]).into_owned();
        }
        text.resize(2 * text.len(), 0);
    }
}

impl Checked {
    /// Prints what became of a single file.
    fn tell(&self, streams: &mut Streams) -> Result<(), Failure> {
        match &self.found {
            Found::Accepted(report) => streams.write(report.as_bytes()),
            Found::Refused(found) => {
                let (source, refused, offer) = &**found;
                streams.line(&refused.line(source))?;
                offer.tell(source, "", streams)
            }
            Found::Failed(failure) => {
                failure.tell(streams);
                Ok(())
            }
        }
    }

    /// Prints what became of a file among others.
    fn tell_of_several(&self, streams: &mut Streams) -> Result<(), Failure> {
        match &self.found {
            Found::Accepted(report) => {
                let last = report.lines().last().unwrap_or_default();
                streams.line(&format!("{}: {last}", self.name))
            }
            Found::Refused(found) => {
                let (source, refused, offer) = &**found;
                streams.line(&refused.line_of_several(source))?;
                offer.tell(source, &format!("{}: ", self.name), streams)
            }
            Found::Failed(_) => self.tell(streams),
        }
    }

    /// What became of a file, as an object.
    fn json(&self) -> Json {
        let accepted = matches!(self.found, Found::Accepted(_));
        let mut fields = vec![
            ("file", Json::from(&*self.name)),
            ("accepted", accepted.into()),
        ];
        fields.extend(match &self.found {
            Found::Accepted(report) => vec![("versions", versions(report))],
            Found::Refused(found) => {
                let (source, refused, offer) = &**found;
                [refused.json(), offer.json(source)].concat()
            }
            Found::Failed(failure) => failure.json(),
        });
        Json::Object(fields)
    }
}

/// The versions of a report, each with the sizes of its four sets.
fn versions(report: &str) -> Json {
    let names = ["version", "read", "assigned", "emptied", "captured"];
    let lines = report.lines().filter(|line| !line.starts_with("accepted"));
    let version = |line: &str| {
        let fields = names.into_iter().zip(line.split(' '));
        let value = |word: &str| word.parse().map_or(Json::from(word), Json::Number);
        let fields = fields.map(|(name, word)| match name {
            "version" => (name, word.into()),
            _ => (name, value(word)),
        });
        Json::Object(fields.collect())
    };
    lines.map(version).collect()
}
