//! `fir join`: two or more images into one.

use crate::command::Join;
use crate::failure::{Failure, Status};
use crate::json::Json;
use crate::number::many;
use crate::refusal::{self, Refused};
use crate::running::answered;
use crate::source::{self, Source};
use crate::streams::Streams;
use crate::writing;
use library::{Refusal, Unjoined, FIR_IMAGE_BYTES};
use reference::joins::{functions, Sizes};
use reference::{Form, Program};
use std::ffi::{OsStr, OsString};
use std::path::Path;

/// A function of a file, with its number in the joined image.
struct Numbered<'f> {
    file: &'f str,
    function: usize,
    number: usize,
}

/// The joined image.
struct Joined<'f> {
    image: Vec<u8>,
    sizes: Sizes,
    functions: Vec<Numbered<'f>>,
}

/// Why images are not joined, and which files that is said of.
struct Stopped<'f> {
    files: Vec<&'f str>,
    /// The text that the refusal stands in, where it is of one image.
    source: Option<&'f Source>,
    refused: Refused,
}

/// Joins the images that are asked for, from the left; the exit status.
pub fn all(asked: &Join, streams: &mut Streams) -> Result<Status, Failure> {
    let files = asked.files.iter().map(OsString::as_os_str);
    writing::ask_apart("join", files, &asked.out)?;
    let mut sources = Vec::new();
    for file in &asked.files {
        match Source::read(file, streams) {
            Ok(source) => sources.push(source),
            Err(failure) => return failed(asked, file, failure, streams),
        }
    }
    match joined(&sources) {
        Ok(joined) => {
            let out = Path::new(&asked.out);
            let content = match source::is_text(out) {
                true => text::disassemble(&joined.image).into_bytes(),
                false => joined.image.clone(),
            };
            match writing::whole(out, &content) {
                Ok(()) => answered(Status::Yes, joined.tell(asked, streams)),
                Err(failure) => failed(asked, &asked.out, failure, streams),
            }
        }
        Err(stopped) => answered(Status::No, stopped.tell(asked, streams)),
    }
}

/// Says that a file has no image or cannot be written, as an object where JSON is asked
/// for.
fn failed(
    asked: &Join,
    file: &OsStr,
    failure: Failure,
    streams: &mut Streams,
) -> Result<Status, Failure> {
    if !asked.json {
        return Err(failure);
    }
    let mut fields = vec![
        ("joined", Json::from(false)),
        ("file", source::name(file).into()),
    ];
    fields.extend(failure.json());
    let told = streams.line(&Json::Object(fields).to_string());
    answered(failure.status(), told)
}

/// The image of all, each joined behind those before it.
fn joined(sources: &[Source]) -> Result<Joined<'_>, Stopped<'_>> {
    let mut image = sources[0].image.clone();
    for (index, source) in sources.iter().enumerate().skip(1) {
        let mut bytes = vec![0; FIR_IMAGE_BYTES];
        let length = library::join(&image, &source.image, &mut bytes);
        let length = length.map_err(|no| match no {
            Unjoined::First(no) => Stopped::by_itself(&sources[0], no),
            Unjoined::Second(no) => Stopped::by_itself(source, no),
            Unjoined::Together(no) => Stopped {
                files: sources[..=index].iter().map(|one| &*one.name).collect(),
                source: None,
                refused: refusal::of_join(&image, &source.image, no),
            },
        })?;
        bytes.truncate(length);
        image = bytes;
    }
    let sizes = sizes(&image);
    Ok(Joined {
        functions: numbered(sources),
        image,
        sizes,
    })
}

/// The sizes of a joined image.
fn sizes(image: &[u8]) -> Sizes {
    let program = Program::accept(image).expect("a joined image is accepted");
    Sizes::of(image, &program)
}

/// The functions of accepted images, in order, with their numbers where these are joined.
fn numbered<'s>(sources: &'s [Source]) -> Vec<Numbered<'s>> {
    let of_source = |source: &'s Source| {
        let program = Program::accept(&source.image).expect("a joined image is accepted");
        (0..functions(&program)).map(|function| (source.name.as_str(), function))
    };
    let all = sources.iter().flat_map(of_source).enumerate();
    all.map(|(number, (file, function))| Numbered {
        file,
        function,
        number,
    })
    .collect()
}

/// The heads of the table.
const FILE: &str = "file";
const FUNCTION: &str = "its function";
const NUMBER: &str = "its number now";

impl Joined<'_> {
    /// Prints which function has which number, and what was written.
    fn tell(&self, asked: &Join, streams: &mut Streams) -> Result<(), Failure> {
        let out = asked.out.to_string_lossy();
        if asked.json {
            return streams.line(&self.json(&out).to_string());
        }
        let widths = self.functions.iter().map(|one| one.file.chars().count());
        let width = widths.max().unwrap_or(0).max(FILE.len());
        streams.line(&format!("{FILE:<width$}  {FUNCTION}  {NUMBER}"))?;
        for one in &self.functions {
            let (file, function, number) = (one.file, one.function, one.number);
            let (second, third) = (FUNCTION.len(), NUMBER.len());
            streams.line(&format!(
                "{file:<width$}  {function:>second$}  {number:>third$}"
            ))?;
        }
        let Sizes {
            bytes,
            functions,
            versions,
        } = self.sizes;
        let (bytes, functions) = (many(bytes, "byte"), many(functions, "function"));
        let versions = many(versions, "version");
        streams.line(&format!(
            "joined to {out}, {bytes}, {functions}, {versions}"
        ))
    }

    /// The same as an object.
    fn json(&self, out: &str) -> Json {
        let number = |one: &Numbered| {
            Json::Object(vec![
                ("file", one.file.into()),
                ("function", one.function.into()),
                ("number", one.number.into()),
            ])
        };
        Json::Object(vec![
            ("joined", true.into()),
            ("out", out.into()),
            ("bytes", self.sizes.bytes.into()),
            ("functions", self.sizes.functions.into()),
            ("versions", self.sizes.versions.into()),
            ("numbers", self.functions.iter().map(number).collect()),
        ])
    }
}

impl<'f> Stopped<'f> {
    /// An image that its own questions refuse.
    fn by_itself(source: &'f Source, no: Refusal) -> Stopped<'f> {
        Stopped {
            files: vec![&source.name],
            source: Some(source),
            refused: refusal::of_image(Form::Wide, source, no),
        }
    }

    /// Prints why nothing is joined.
    fn tell(&self, asked: &Join, streams: &mut Streams) -> Result<(), Failure> {
        let line = match (asked.json, self.source) {
            (true, _) => self.json().to_string(),
            (false, Some(source)) => self.refused.line_of_several(source),
            (false, None) => format!("{}: {}", self.names(), self.refused.plain()),
        };
        streams.line(&line)
    }

    /// The names of the files: `a.fir, b.fir and c.fir`.
    fn names(&self) -> String {
        match self.files.split_last() {
            Some((last, before)) if !before.is_empty() => {
                format!("{} and {last}", before.join(", "))
            }
            _ => self.files.concat(),
        }
    }

    /// The same as an object.
    fn json(&self) -> Json {
        let mut fields = vec![("joined", Json::from(false))];
        fields.push(match self.source {
            Some(source) => ("file", source.name.as_str().into()),
            None => ("files", self.files.iter().copied().collect()),
        });
        fields.extend(self.refused.json());
        Json::Object(fields)
    }
}
