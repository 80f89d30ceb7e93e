//! Files: an image as bytes or as text, and where its records stand in the text.

use crate::failure::{Failure, Wrong};
use crate::place::Position;
use crate::streams::Streams;
use crate::writing;
use reference::program::Version;
use reference::record::{VersionRecord, HEAD};
use std::ffi::{OsStr, OsString};
use std::fs::File;
use std::io::{Read, Result as Reading};
use std::path::Path;
use text::{Declaration, Declarations, Names, Registers, Words};

/// The most bytes that are read of a file.
const MOST_BYTES: usize = 16 << 20;

/// The extension of texts.
const TEXT: &str = "fir";

/// What some editors write before a text; it is passed over.
const BYTE_ORDER_MARK: &[u8] = "\u{feff}".as_bytes();

/// An image, with its text if it came from one.
#[derive(Clone, Debug)]
pub struct Source {
    /// What it is called in a message.
    pub name: String,
    /// The image.
    pub image: Vec<u8>,
    /// The text; none for an image from bytes.
    pub text: Option<String>,
    /// Has the file of the text a byte order mark before it?
    pub is_marked: bool,
    /// Offsets with their lines, in order; empty for an image from bytes.
    lines: Vec<(usize, usize)>,
    /// The column of the first word of each line.
    columns: Vec<usize>,
    /// What the text calls registers.
    pub names: Names,
    /// Where it declares them.
    declarations: Declarations,
}

impl Source {
    /// An image from bytes; `name` is what it is called in a message.
    pub fn bytes(image: Vec<u8>, name: &str) -> Source {
        Source {
            name: name.to_string(),
            image,
            text: None,
            is_marked: false,
            lines: Vec::new(),
            columns: Vec::new(),
            names: Names::default(),
            declarations: Declarations::default(),
        }
    }

    /// The image of a text; `name` is what the text is called in a message.
    pub fn text(text: String, name: &str) -> Result<Source, Failure> {
        let name = name.to_string();
        match text::assemble_lined(&text) {
            Ok(lined) => Ok(Source {
                name,
                image: lined.image,
                lines: lined.lines,
                names: lined.names,
                declarations: lined.declarations,
                columns: text.lines().map(text::first_column).collect(),
                text: Some(text),
                is_marked: false,
            }),
            Err(error) => Err(Failure::Text(Wrong {
                name,
                position: Position {
                    line: error.line,
                    column: error.column,
                },
                reason: error.reason,
            })),
        }
    }

    /// The image of a file or of standard input: from its text where the name ends in
    /// `.fir` or the bytes look like a text, else from its bytes.
    pub fn read(file: &OsStr, streams: &mut Streams) -> Result<Source, Failure> {
        let (bytes, name) = (bytes_of(file, streams)?, name(file));
        if is_text(Path::new(file)) || looks_like_text(&bytes) {
            let is_marked = bytes.starts_with(BYTE_ORDER_MARK);
            let source = Source::text(text_from(bytes, &name)?, &name)?;
            Ok(Source {
                is_marked,
                ..source
            })
        } else {
            Ok(Source::bytes(bytes, &name))
        }
    }

    /// The same image with a text in any case: bytes get that of `fir dis`.
    pub fn readable(self) -> Source {
        if self.text.is_some() {
            return self;
        }
        let name = format!("{}, disassembled", self.name);
        let readable = Source::text(text::disassemble(&self.image), &name);
        readable.unwrap_or(self)
    }

    /// The line of the record at an offset; none for an image from bytes, and
    /// none behind the last record.
    pub fn line(&self, offset: usize) -> Option<usize> {
        let behind = self.lines.partition_point(|&(first, _)| first <= offset);
        let inside = offset < self.image.len();
        let record = behind.checked_sub(1).filter(|_| inside)?;
        self.lines.get(record).map(|&(_, line)| line)
    }

    /// Where the record at an offset stands in the text; behind the last record, where
    /// the text ends; none for an image from bytes.
    pub fn position(&self, offset: usize) -> Option<Position> {
        self.text.as_ref()?;
        let last = self.columns.len().max(1);
        let line = self.line(offset).unwrap_or(last);
        let column = self.columns.get(line - 1).copied().unwrap_or(1);
        Some(Position { line, column })
    }

    /// What the text calls the registers of a version.
    pub fn registers(&self, version: &Version) -> &Registers {
        self.names.of(version.head.function, version.head.version)
    }

    /// A register of a version as the text declares it.
    fn declaration(&self, version: &Version, register: usize) -> Option<&Declaration> {
        let VersionRecord {
            function, version, ..
        } = version.head;
        let register = u8::try_from(register).ok()?;
        self.declarations.of(function, version, register)
    }

    /// Where a register of a version is declared in the text.
    pub fn declared(&self, version: &Version, register: usize) -> Option<Position> {
        let &Declaration { line, column, .. } = self.declaration(version, register)?;
        Some(Position { line, column })
    }

    /// The words of a register's type in the text; those of its byte where that stands in a
    /// `bytes` line.
    pub fn type_words(&self, version: &Version, register: usize, byte: usize) -> Option<Words> {
        let text = self.text.as_ref()?;
        let declared = self.declaration(version, register);
        declared.map(|declared| declared.ty.clone()).or_else(|| {
            let behind = self.lines.partition_point(|&(first, _)| first <= byte);
            let &(first, line) = self.lines.get(behind.checked_sub(1)?)?;
            text::byte_digits(text, line, byte - first)
        })
    }
}

/// The bytes of a file that holds a text, behind a byte order mark if it has one.
pub fn bytes_of_text(text: &str, is_marked: bool) -> Vec<u8> {
    let mark = if is_marked { BYTE_ORDER_MARK } else { &[] };
    [mark, text.as_bytes()].concat()
}

/// Are these the bytes of a text? An image that has a whole record has bytes that no text
/// has: the upper byte of each kind is 0.
fn looks_like_text(bytes: &[u8]) -> bool {
    let plain = |sign: char| !sign.is_control() || sign.is_ascii_whitespace();
    let is_text = |text: &str| text.chars().all(plain) && text.contains(char::is_alphanumeric);
    bytes.len() >= HEAD && std::str::from_utf8(bytes).is_ok_and(is_text)
}

/// Does a file hold the text form, by its name?
pub fn is_text(file: &Path) -> bool {
    file.extension() == Some(OsStr::new(TEXT))
}

/// Asks that a file that bytes are written to is not called a text.
pub fn ask_bytes(out: &Path) -> Result<(), String> {
    if !is_text(out) {
        return Ok(());
    }
    let out = out.display();
    Err(format!(
        "`{out}` would hold an image's bytes, and .fir names texts"
    ))
}

/// What a file is called in a message.
pub fn name(file: &OsStr) -> String {
    if file == "-" {
        "standard input".to_string()
    } else {
        file.to_string_lossy().into_owned()
    }
}

/// The bytes of a file, of standard input for `-`.
pub fn bytes_of(file: &OsStr, streams: &mut Streams) -> Result<Vec<u8>, Failure> {
    let bytes = if file == "-" {
        limited(streams.input)
    } else {
        File::open(file).and_then(|mut file| limited(&mut file))
    };
    let cannot = |reason: String| Failure::File(format!("{}: {reason}", name(file)));
    let bytes = bytes.map_err(|error| cannot(format!("cannot be read: {error}")))?;
    if bytes.len() > MOST_BYTES {
        return Err(cannot(format!("has more than {MOST_BYTES} bytes")));
    }
    Ok(bytes)
}

/// What can be read, up to one byte more than there may be.
fn limited(input: &mut dyn Read) -> Reading<Vec<u8>> {
    let mut bytes = Vec::new();
    input.take(MOST_BYTES as u64 + 1).read_to_end(&mut bytes)?;
    Ok(bytes)
}

/// The text of a file, of standard input for `-`.
pub fn text_of(file: &OsStr, streams: &mut Streams) -> Result<String, Failure> {
    text_from(bytes_of(file, streams)?, &name(file))
}

/// The text that bytes make behind a byte order mark, if they begin with one; `name` is
/// what it is called in a failure.
fn text_from(mut bytes: Vec<u8>, name: &str) -> Result<String, Failure> {
    if bytes.starts_with(BYTE_ORDER_MARK) {
        bytes.drain(..BYTE_ORDER_MARK.len());
    }
    String::from_utf8(bytes).map_err(|error| {
        let before = &error.as_bytes()[..error.utf8_error().valid_up_to()];
        let before = String::from_utf8_lossy(before);
        let line = before.rsplit('\n').next().unwrap_or_default();
        Failure::Text(Wrong {
            name: name.to_string(),
            position: Position {
                line: 1 + before.matches('\n').count(),
                column: 1 + line.chars().count(),
            },
            reason: "not in UTF-8".to_string(),
        })
    })
}

/// Writes to a file, or to the output where none is named.
pub fn put(out: Option<&OsString>, bytes: &[u8], streams: &mut Streams) -> Result<(), Failure> {
    match out {
        None => streams.write(bytes),
        Some(file) => writing::whole(Path::new(file), bytes),
    }
}
