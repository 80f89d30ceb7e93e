//! A command over several files.

use crate::failure::{Failure, Status};
use crate::json::Json;
use crate::source::{self, Source};
use crate::streams::Streams;
use std::ffi::{OsStr, OsString};

/// Does the same with the image of each file; the worst exit status. Of a file that has none
/// it says why: in words, or where an object is asked for, in one whose field of this name is
/// `failed`.
pub fn each(
    files: &[OsString],
    object: Option<&'static str>,
    streams: &mut Streams,
    one: impl Fn(&Source, &mut Streams) -> Result<Status, Failure>,
) -> Result<Status, Failure> {
    let mut status = Status::Yes;
    for file in files {
        let found = match Source::read(file, streams) {
            Ok(source) => one(&source, streams)?,
            Err(failure) => {
                match object {
                    Some(field) => streams.line(&failed(field, file, &failure).to_string())?,
                    None => failure.tell(streams),
                }
                failure.status()
            }
        };
        status = status.worse(found);
    }
    Ok(status)
}

/// A file that has no image, as an object.
fn failed(field: &'static str, file: &OsStr, failure: &Failure) -> Json {
    let mut fields = vec![
        ("file", Json::from(source::name(file))),
        (field, "failed".into()),
    ];
    fields.extend(failure.json());
    Json::Object(fields)
}
