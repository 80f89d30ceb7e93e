//! What is printed of a run, as lines or as JSON.

use crate::failure::{Failure, Status};
use crate::json::Json;
use crate::number::many;
use crate::refusal::Refused;
use crate::running::answered;
use crate::source::Source;
use crate::stats::Stats;
use crate::streams::Streams;
use crate::trace::{Standing, Step};
use library::{Answer, End, State};

/// How things are printed.
#[derive(Clone, Copy, PartialEq, Eq, Debug)]
pub enum Format {
    /// As lines for people.
    Lines,
    /// As JSON, an object on each line.
    Json,
}

/// How a run ended, or where it was left.
pub struct Ending<'r> {
    /// The answer.
    pub answer: Answer,
    /// The items of a vector that it is DONE with.
    pub buffer: &'r [i64],
    /// The steps taken.
    pub steps: u32,
    /// The image in force.
    pub source: &'r Source,
    /// Where it stands, unless it is DONE.
    pub standing: Option<Standing>,
    /// The images that it did not come to: `new.fir@100`.
    pub left: Vec<String>,
    /// What was counted, if it was.
    pub stats: Option<&'r Stats>,
}

/// A file that has no image: it cannot be read, or does not assemble.
pub struct Unread {
    /// What it is called.
    pub name: String,
    /// Why.
    pub failure: Failure,
}

/// A change of the image that was tried.
pub struct Tried<'r> {
    /// After how many steps.
    pub steps: u32,
    /// The new image.
    pub new: &'r Source,
}

impl Format {
    /// Prints an object.
    fn object(fields: Vec<(&'static str, Json)>, streams: &mut Streams) -> Result<(), Failure> {
        streams.line(&Json::Object(fields).to_string())
    }

    /// Prints why a run is refused.
    pub fn refused(
        self,
        source: &Source,
        refused: &Refused,
        streams: &mut Streams,
    ) -> Result<(), Failure> {
        match self {
            Format::Lines => streams.line(&refused.line(source)),
            Format::Json => {
                let mut fields = vec![("result", Json::from("refused"))];
                fields.extend(refused.json());
                Format::object(fields, streams)
            }
        }
    }

    /// Prints why a file has no image, if that is an object; else the failure is told
    /// where all are. The exit status.
    pub fn failed(self, unread: Unread, streams: &mut Streams) -> Result<Status, Failure> {
        let Unread { name, failure } = unread;
        if self == Format::Lines {
            return Err(failure);
        }
        let mut fields = vec![("result", Json::from("failed")), ("file", name.into())];
        fields.extend(failure.json());
        answered(failure.status(), Format::object(fields, streams))
    }

    /// Prints a step and what it did.
    pub fn step(
        self,
        source: &Source,
        step: &Step,
        after: &State,
        streams: &mut Streams,
    ) -> Result<(), Failure> {
        match self {
            Format::Lines => streams.line(&step.line(after)),
            Format::Json => streams.line(&step.json(source, after).to_string()),
        }
    }

    /// Prints that a run goes on under another image, or why it does not.
    pub fn changed(
        self,
        tried: &Tried,
        refused: Option<&Refused>,
        streams: &mut Streams,
    ) -> Result<(), Failure> {
        let Tried { steps, new } = tried;
        let after = format!("after {}", many(*steps as usize, "step"));
        match (self, refused) {
            (Format::Lines, None) => streams.line(&format!("{after}: goes on under {}", new.name)),
            (Format::Lines, Some(refused)) => {
                streams.line(&refused.line_after(new, &format!(" {after}")))
            }
            (Format::Json, _) => {
                let mut fields = vec![
                    ("step", Json::from(*steps)),
                    ("image", new.name.as_str().into()),
                    ("taken", refused.is_none().into()),
                ];
                fields.extend(refused.into_iter().flat_map(Refused::json));
                Format::object(fields, streams)
            }
        }
    }

    /// Prints how a run ended.
    pub fn ended(self, ending: &Ending, streams: &mut Streams) -> Result<(), Failure> {
        match self {
            Format::Lines => {
                let steps = many(ending.steps as usize, "step");
                let answer = words_of(ending.answer, ending.buffer);
                streams.line(&format!("{answer} after {steps}"))?;
                ending.stand(streams)?;
                for left in &ending.left {
                    streams.line(&format!("  not reached: {left}"))?;
                }
                ending.count(streams)
            }
            Format::Json => Format::object(ending.json(), streams),
        }
    }

    /// Prints where a run was left whose new image is refused.
    pub fn left(self, ending: &Ending, streams: &mut Streams) -> Result<(), Failure> {
        match self {
            Format::Lines => {
                ending.stand(streams)?;
                ending.count(streams)
            }
            Format::Json => {
                let mut fields = vec![
                    ("result", Json::from("refused")),
                    ("steps", ending.steps.into()),
                ];
                fields.extend(ending.standing.iter().flat_map(Standing::json));
                fields.extend(ending.stats_json());
                Format::object(fields, streams)
            }
        }
    }
}

impl Ending<'_> {
    /// Prints where the run stands, if it does.
    fn stand(&self, streams: &mut Streams) -> Result<(), Failure> {
        match &self.standing {
            Some(standing) => streams.line(&standing.line(self.source)),
            None => Ok(()),
        }
    }

    /// Prints what was counted, if it was.
    fn count(&self, streams: &mut Streams) -> Result<(), Failure> {
        match self.stats {
            Some(stats) => stats.tell(self.steps, streams),
            None => Ok(()),
        }
    }

    /// What was counted, to stand in an object.
    fn stats_json(&self) -> Option<(&'static str, Json)> {
        self.stats.map(|stats| ("stats", stats.json(self.steps)))
    }

    /// The ending, to stand in an object.
    fn json(&self) -> Vec<(&'static str, Json)> {
        let mut fields = vec![
            ("result", Json::from(name_of(self.answer))),
            ("steps", self.steps.into()),
        ];
        match value_of(self.answer, self.buffer) {
            Some(value) => fields.push(("value", value)),
            None => fields.extend(self.standing.iter().flat_map(Standing::json)),
        }
        if !self.left.is_empty() {
            let left = self.left.iter().map(String::as_str);
            fields.push(("not_reached", left.collect()));
        }
        fields.extend(self.stats_json());
        fields
    }
}

/// The exit status of an answer.
pub fn status(answer: Answer) -> Status {
    match answer {
        Answer::Ended(End::Integer(_) | End::Vector(_)) => Status::Yes,
        Answer::Ended(End::Undef) => Status::Undef,
        Answer::Ended(End::Deep | End::Vectors | End::Promises) => Status::Stopped,
        Answer::Steps => Status::Steps,
        Answer::Stuck | Answer::Refused(_) => Status::No,
    }
}

/// An answer's name.
pub fn name_of(answer: Answer) -> &'static str {
    match answer {
        Answer::Ended(End::Integer(_) | End::Vector(_)) => "DONE",
        Answer::Ended(End::Undef) => "UNDEF",
        Answer::Ended(End::Deep) => "DEEP",
        Answer::Ended(End::Vectors) => "VECTORS",
        Answer::Ended(End::Promises) => "PROMISES",
        Answer::Steps => "STEPS",
        Answer::Stuck => "STUCK",
        Answer::Refused(_) => "refused",
    }
}

/// What the run of an answer is DONE with, if it is.
pub fn value_of(answer: Answer, buffer: &[i64]) -> Option<Json> {
    match answer {
        Answer::Ended(End::Integer(integer)) => Some(integer.into()),
        Answer::Ended(End::Vector(length)) => Some(buffer[..length].iter().copied().collect()),
        _ => None,
    }
}

/// An answer, with what the run is DONE with.
pub fn words_of(answer: Answer, buffer: &[i64]) -> String {
    let name = name_of(answer);
    match answer {
        Answer::Ended(End::Integer(integer)) => format!("{name} {integer}"),
        Answer::Ended(End::Vector(length)) => format!("{name} {:?}", &buffer[..length]),
        Answer::Refused(no) => format!("{name} by {}", no.question),
        _ => name.to_string(),
    }
}
