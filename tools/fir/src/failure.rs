//! Why a command came to no answer, and the exit status.

use crate::json::Json;
use crate::place::Position;
use crate::streams::Streams;

/// The exit status.
#[derive(Clone, Copy, PartialEq, Eq, Debug)]
pub enum Status {
    /// Accepted, mended, DONE, moved, joined, assembled.
    Yes = 0,
    /// Refused, or a text that does not assemble.
    No = 1,
    /// Bad usage, or a file that cannot be read or written.
    Usage = 2,
    /// UNDEF.
    Undef = 3,
    /// DEEP, VECTORS or PROMISES.
    Stopped = 4,
    /// STEPS: the budget is used up.
    Steps = 5,
}

impl Status {
    /// That of two files: what could not be read weighs more than what was found.
    pub fn worse(self, other: Status) -> Status {
        if self as u8 > other as u8 {
            self
        } else {
            other
        }
    }
}

/// What is wrong with a text, and where.
#[derive(Clone, PartialEq, Eq, Debug)]
pub struct Wrong {
    /// What the text is called.
    pub name: String,
    /// Where it is wrong.
    pub position: Position,
    /// Why.
    pub reason: String,
}

/// Why a command came to no answer.
#[derive(Clone, PartialEq, Eq, Debug)]
pub enum Failure {
    /// The command line is wrong: the command, if it is known, and what is wrong.
    Usage(Option<&'static str>, String),
    /// A file cannot be read or written.
    File(String),
    /// A text does not assemble.
    Text(Wrong),
    /// Whoever read the output has gone.
    Closed,
}

impl Failure {
    /// The exit status.
    pub fn status(&self) -> Status {
        match self {
            Failure::Usage(..) | Failure::File(_) => Status::Usage,
            Failure::Text(_) | Failure::Closed => Status::No,
        }
    }

    /// Says on standard error what is wrong; nothing where nobody reads.
    pub fn tell(&self, streams: &mut Streams) {
        if let Some(line) = self.line() {
            streams.complain(&line);
        }
    }

    /// What is wrong, in a line; none where nobody reads.
    pub fn line(&self) -> Option<String> {
        Some(match self {
            Failure::Usage(None, reason) => format!("fir: {reason}; see `fir --help`"),
            Failure::Usage(Some(command), reason) => {
                format!("fir {command}: {reason}; see `fir {command} --help`")
            }
            Failure::File(reason) => format!("fir: {reason}"),
            Failure::Text(wrong) => {
                let Wrong {
                    name,
                    position,
                    reason,
                } = wrong;
                format!("{name}:{position}: {reason}")
            }
            Failure::Closed => return None,
        })
    }

    /// What is wrong, to stand in an object.
    pub fn json(&self) -> Vec<(&'static str, Json)> {
        match self {
            Failure::Text(Wrong {
                position, reason, ..
            }) => {
                let mut fields = Json::position(Some(*position));
                fields.push(("words", reason.as_str().into()));
                fields
            }
            Failure::File(reason) | Failure::Usage(_, reason) => {
                vec![("error", reason.as_str().into())]
            }
            Failure::Closed => Vec::new(),
        }
    }
}
