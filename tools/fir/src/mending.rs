//! Corrections beside refusals, and `fir mend`.

use crate::command::Mend;
use crate::failure::{Failure, Status};
use crate::json::Json;
use crate::place::{beginning, version_name, Position};
use crate::refusal::{self, Refused};
use crate::running::answered;
use crate::source::{self, Source};
use crate::streams::Streams;
use crate::writing;
use library::{Mended, Refusal, Verdict};
use reference::program::Version;
use reference::{Form, Program, Type};
use std::path::Path;
use text::{type_text, Words};

/// Where the register types of a VERSION record begin.
const TYPES: usize = 10;

/// What can be done for a refused image.
pub enum Offer {
    /// Another question refuses it than 6, 8, 9 and 10.
    NotSought,
    /// No other type of one register makes it accepted.
    Nothing,
    /// This one does.
    Change(Change),
}

/// The change of a register's type.
pub struct Change {
    /// The offset of its byte.
    offset: usize,
    old: Type,
    new: Type,
    /// The version's numbers.
    version: String,
    register: usize,
    /// What the text calls it.
    called: String,
    is_parameter: bool,
    /// The words to change in the text, and the new ones.
    words: Option<(Words, String)>,
    /// Further types of the register that make the image accepted.
    also: Vec<Type>,
}

/// What can be done for a refused image.
pub fn offer(source: &Source) -> Offer {
    Offer::of(source, library::mend(&source.image))
}

impl Offer {
    /// That of what the library answers.
    fn of(source: &Source, mended: Mended) -> Offer {
        match mended {
            Mended::Byte { offset, value, .. } => Offer::Change(Change::of(source, offset, value)),
            Mended::Unmended(_) => Offer::Nothing,
            Mended::Accepted { .. } | Mended::Refused(_) => Offer::NotSought,
        }
    }

    /// Prints the line beside a refusal, where something is offered. It begins with the place
    /// in the text, else with these words.
    pub fn tell(
        &self,
        source: &Source,
        otherwise: &str,
        streams: &mut Streams,
    ) -> Result<(), Failure> {
        match self {
            Offer::Change(change) => streams.line(&change.line(source, otherwise)),
            Offer::Nothing | Offer::NotSought => Ok(()),
        }
    }

    /// The same to stand in an object: null where there is no mend, and nothing where none
    /// is looked for.
    pub fn json(&self, source: &Source) -> Vec<(&'static str, Json)> {
        match self {
            Offer::Change(change) => vec![("mend", change.json(source))],
            Offer::Nothing => vec![("mend", Json::Null)],
            Offer::NotSought => Vec::new(),
        }
    }
}

impl Change {
    /// The change of a register type byte to a value.
    fn of(source: &Source, offset: usize, value: u8) -> Change {
        let program = Program::ordered(&source.image).expect("6 and later questions refuse it");
        let version = holding(&program, offset).expect("a register type byte is named");
        let register = offset - version.offset - TYPES;
        let change = Change {
            offset,
            old: Type(source.image[offset]),
            new: Type(value),
            version: version_name(version),
            register,
            called: called(source, version, register),
            is_parameter: register < usize::from(version.head.parameters),
            words: None,
            also: also(source, offset, value),
        };
        let words = source.type_words(version, register, offset);
        let words =
            words.and_then(|words| Some((words.clone(), change.new_words(source, &words)?)));
        Change { words, ..change }
    }

    /// The new words in the place of the old ones, where the text then makes the mended
    /// image: a name, or the digits of the byte.
    fn new_words(&self, source: &Source, old: &Words) -> Option<String> {
        let words = [type_text(self.new), digits(self.new)];
        let makes = |words: &String| {
            let text = replaced(source, old, words)?;
            (text::assemble(&text).ok()? == self.image(source)).then_some(())
        };
        words.into_iter().find(|words| makes(words).is_some())
    }

    /// A further type that would do, as an object.
    fn also_json(&self, ty: Type) -> Json {
        let in_digits = |(_, new): &(Words, String)| *new == digits(self.new);
        let text = match self.words.as_ref().is_some_and(in_digits) {
            true => digits(ty),
            false => type_text(ty),
        };
        Json::Object(vec![("new", ty.0.into()), ("text", text.into())])
    }

    /// The mended image.
    fn image(&self, source: &Source) -> Vec<u8> {
        let mut image = source.image.clone();
        image[self.offset] = self.new.0;
        image
    }

    /// What is written: the mended image, or where the source is a text that text with other
    /// words; none where the text has no words for the byte.
    fn content(&self, source: &Source) -> Option<Vec<u8>> {
        if source.text.is_none() {
            return Some(self.image(source));
        }
        let (old, new) = self.words.as_ref()?;
        let text = replaced(source, old, new)?;
        assert_eq!(
            text::assemble(&text),
            Ok(self.image(source)),
            "the mended text"
        );
        Some(source::bytes_of_text(&text, source.is_marked))
    }

    /// Where the words stand in the text.
    fn position(&self) -> Option<Position> {
        let (words, _) = self.words.as_ref()?;
        let (line, column) = (words.line, words.column);
        Some(Position { line, column })
    }

    /// What is changed: `r2 of 0.0: int in place of vector`, and what would do too.
    fn plain(&self) -> String {
        let sort = if self.is_parameter { "parameter " } else { "" };
        let (register, version) = (&self.called, &self.version);
        let (new, old) = (type_text(self.new), type_text(self.old));
        let byte = match self.words {
            Some(_) => String::new(),
            None => format!(
                " ({} in place of {} at {})",
                self.new.0, self.old.0, self.offset
            ),
        };
        let also: Vec<String> = self.also.iter().copied().map(type_text).collect();
        let also = match also.split_last() {
            None => String::new(),
            Some((one, [])) => format!("; {one} would do too"),
            Some((last, before)) => format!("; {} and {last} would do too", before.join(", ")),
        };
        format!("{sort}{register} of {version}: {new} in place of {old}{byte}{also}")
    }

    /// The line of a mend; it begins with the place in the text, else with these words.
    fn line(&self, source: &Source, otherwise: &str) -> String {
        let begin = beginning(&source.name, self.position(), otherwise);
        format!("{begin}mend: {}", self.plain())
    }

    /// The same as an object that an editor can apply.
    fn json(&self, source: &Source) -> Json {
        let mut fields = vec![
            ("offset", self.offset.into()),
            ("old", self.old.0.into()),
            ("new", self.new.0.into()),
            ("version", self.version.as_str().into()),
            ("register", self.register.into()),
            ("words", self.plain().into()),
        ];
        if let (Some((words, new)), Some(text)) = (&self.words, &source.text) {
            fields.extend(Json::position(self.position()));
            let length = text[words.bytes.clone()].chars().count();
            fields.extend([("length", length.into()), ("text", new.as_str().into())]);
        }
        fields.push((
            "also",
            self.also.iter().map(|&ty| self.also_json(ty)).collect(),
        ));
        Json::Object(fields)
    }
}

/// The digits of a type in a `bytes` line.
fn digits(ty: Type) -> String {
    format!("{:02x}", ty.0)
}

/// The type bytes, in the order in which they are tried.
const TYPE_BYTES: [u8; 8] = [0, 1, 2, 3, 4, 5, 0x13, 0x23];

/// The types behind a value that make the image accepted in its place.
fn also(source: &Source, offset: usize, value: u8) -> Vec<Type> {
    let mut image = source.image.clone();
    let behind = TYPE_BYTES.into_iter().filter(|&other| other > value);
    let accepted = behind.filter(|&other| {
        image[offset] = other;
        matches!(library::verdict(&image), Verdict::Accepted { .. })
    });
    accepted.map(Type).collect()
}

/// What the text calls a register of a version.
fn called(source: &Source, version: &Version, register: usize) -> String {
    let register = u8::try_from(register).unwrap_or(u8::MAX);
    source.registers(version).text(register)
}

/// The version whose register types a byte is among.
fn holding(program: &Program, offset: usize) -> Option<&Version> {
    let mut versions = program.versions.iter();
    versions.find(|version| {
        let first = version.offset + TYPES;
        (first..first + version.head.types.len()).contains(&offset)
    })
}

/// The text with other words in the place of some.
fn replaced(source: &Source, old: &Words, new: &str) -> Option<String> {
    let mut text = source.text.clone()?;
    text.replace_range(old.bytes.clone(), new);
    Some(text)
}

/// Mends the image that is asked for; the exit status.
pub fn one(asked: &Mend, streams: &mut Streams) -> Result<Status, Failure> {
    if let Some(out) = &asked.out {
        writing::ask_apart("mend", [asked.file.as_os_str()], out)?;
    }
    let source = match Source::read(&asked.file, streams) {
        Ok(source) => source,
        Err(failure) => return failed(asked, failure, streams),
    };
    let mended = library::mend(&source.image);
    let no = match mended {
        Mended::Accepted { .. } => {
            return answered(Status::Yes, tell_accepted(asked, &source, streams))
        }
        Mended::Refused(no) | Mended::Unmended(no) => no,
        Mended::Byte { refusal, .. } => refusal,
    };
    let told = Told {
        refused: refusal::of_image(Form::Wide, &source, no),
        offer: Offer::of(&source, mended),
        source,
        no,
    };
    match told.write(asked) {
        Ok(status) => answered(status, told.tell(asked, status, streams)),
        Err(failure) => failed(asked, failure, streams),
    }
}

/// Says that a file has no image or cannot be written, as an object where JSON is asked for.
fn failed(asked: &Mend, failure: Failure, streams: &mut Streams) -> Result<Status, Failure> {
    if !asked.json || matches!(failure, Failure::Usage(..)) {
        return Err(failure);
    }
    let name = source::name(&asked.file);
    let mut fields = vec![("file", Json::from(name)), ("accepted", false.into())];
    fields.extend(failure.json());
    let told = streams.line(&Json::Object(fields).to_string());
    answered(failure.status(), told)
}

/// Says that there is nothing to mend.
fn tell_accepted(asked: &Mend, source: &Source, streams: &mut Streams) -> Result<(), Failure> {
    if asked.json {
        let fields = vec![
            ("file", source.name.as_str().into()),
            ("accepted", true.into()),
        ];
        return streams.line(&Json::Object(fields).to_string());
    }
    let written = match asked.out {
        Some(_) => ", and nothing is written",
        None => "",
    };
    streams.line(&format!("accepted: there is nothing to mend{written}"))
}

/// A refused image, and what can be done for it.
struct Told {
    source: Source,
    no: Refusal,
    refused: Refused,
    offer: Offer,
}

impl Told {
    /// Writes what was asked for; the exit status.
    fn write(&self, asked: &Mend) -> Result<Status, Failure> {
        let (Offer::Change(change), Some(out)) = (&self.offer, &asked.out) else {
            return Ok(Status::No);
        };
        let out = Path::new(out);
        if self.source.text.is_none() {
            source::ask_bytes(out).map_err(|reason| Failure::Usage(Some("mend"), reason))?;
        }
        let content = change.content(&self.source).ok_or_else(|| {
            let name = &self.source.name;
            Failure::File(format!(
                "{name}: the type has no words of its own in the text"
            ))
        })?;
        writing::whole(out, &content)?;
        Ok(Status::Yes)
    }

    /// Prints the refusal, the mend, and what was written.
    fn tell(&self, asked: &Mend, status: Status, streams: &mut Streams) -> Result<(), Failure> {
        let written = asked.out.as_ref().filter(|_| status == Status::Yes);
        if asked.json {
            let mut fields = vec![
                ("file", Json::from(self.source.name.as_str())),
                ("accepted", false.into()),
            ];
            fields.extend(self.refused.json());
            fields.extend(self.offer.json(&self.source));
            fields.extend(written.map(|out| ("out", out.to_string_lossy().into_owned().into())));
            return streams.line(&Json::Object(fields).to_string());
        }
        streams.line(&self.refused.line(&self.source))?;
        streams.line(&self.line())?;
        match written {
            Some(out) => streams.line(&format!("mended to {}", out.to_string_lossy())),
            None => Ok(()),
        }
    }

    /// The mend, or why there is none.
    fn line(&self) -> String {
        match &self.offer {
            Offer::Change(change) => change.line(&self.source, ""),
            Offer::Nothing => {
                "no mend: no other type of one register makes it accepted".to_string()
            }
            Offer::NotSought => format!(
                "no mend: a register's type mends refusals by 6, 8, 9 and 10, not by {}",
                self.no.question
            ),
        }
    }
}
