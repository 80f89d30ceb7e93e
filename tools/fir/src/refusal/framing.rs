//! Questions 1 to 3: the image's size, its records, their kinds and lengths.

use super::vocabulary::kind_name;
use crate::number::many;
use reference::bounds::MAX_IMAGE;
use reference::record::{Framed, Record, HEAD};
use reference::{kinds, Form};

/// Question 1: why an image's size is wrong.
pub fn size(image: &[u8]) -> Option<String> {
    match image.len() {
        0 => Some("the image is empty, and has 1 to 32,768 bytes".to_string()),
        length if length > MAX_IMAGE => Some(format!(
            "the image has {length} bytes, and 32,768 are the most"
        )),
        _ => None,
    }
}

/// Question 2: why no whole record stands at an offset.
pub fn record(image: &[u8], offset: usize) -> Option<String> {
    let rest = image.get(offset..)?;
    if rest.len() < HEAD {
        let bytes = many(rest.len(), "byte");
        return (!rest.is_empty())
            .then(|| format!("the image ends {bytes} into a record, and a head has {HEAD}"));
    }
    let length = usize::from(u16::from_le_bytes([rest[0], rest[1]]));
    let name = kind_name(u16::from_le_bytes([rest[2], rest[3]])).unwrap_or("record");
    let end = offset + length;
    if length < HEAD {
        Some(format!(
            "a {name} of length {length}, and {HEAD} is the least"
        ))
    } else if end > image.len() {
        Some(format!(
            "a {name} of {length} bytes ends at {end}, behind the image's end at {}",
            image.len()
        ))
    } else {
        None
    }
}

/// Question 3: why the record at an offset has no known kind or not its length.
pub fn fields(form: Form, image: &[u8], offset: usize) -> Option<String> {
    let framed = Framed::at(image, offset)?;
    if framed.kind == form.other().literal() {
        return Some(foreign(form).to_string());
    }
    let Some(name) = kind_name(framed.kind) else {
        return Some(format!("{} is the kind of no record", framed.kind));
    };
    if Record::read_in(form, framed.kind, framed.body).is_some() {
        return None;
    }
    let has = HEAD + framed.body.len();
    Some(match needed(framed.kind, framed.body) {
        Length::Whole(length) => format!("{name} has {length} bytes, this one {has}"),
        Length::Counted(count, length) => {
            let registers = many(count, "register");
            format!("{name} of {registers} has {length} bytes, this one {has}")
        }
        Length::Least(length) => format!("{name} has {length} bytes at least, this one {has}"),
    })
}

/// Why a form does not know the literal of the other.
fn foreign(form: Form) -> &'static str {
    match form {
        Form::Narrow => "36 is the kind of LIT with 64 bits; in the form of 32 bits LIT is kind 16",
        Form::Wide => {
            "16 was the kind of LIT with 32 bits; now LIT is kind 36, and `fir move` moves the image"
        }
    }
}

/// How long a record is.
enum Length {
    /// Always so long.
    Whole(usize),
    /// So many registers make it so long.
    Counted(usize, usize),
    /// At least so long: its count is not there.
    Least(usize),
}

/// How long a record of a known kind is, by its count if it has one.
fn needed(kind: u16, body: &[u8]) -> Length {
    let counted = |place: usize, fields: usize, each: usize| match body.get(place) {
        Some(&count) if body.len() >= fields => {
            let count = usize::from(count);
            Length::Counted(count, HEAD + fields + each * count)
        }
        _ => Length::Least(HEAD + fields),
    };
    match kind {
        kinds::VERSION => counted(3, 6, 1),
        kinds::VEC => counted(1, 2, 1),
        kinds::CALL => counted(3, 4, 1),
        kinds::DISPATCH => counted(4, 5, 2),
        kinds::NARROW_LIT => Length::Whole(HEAD + 5),
        kinds::LIT => Length::Whole(HEAD + 9),
        kinds::ARITH | kinds::SELECT => Length::Whole(HEAD + 4),
        kinds::LEVEL => Length::Whole(HEAD + 1),
        kinds::BLOCK | kinds::GET | kinds::SET | kinds::PEEK | kinds::POKE => {
            Length::Whole(HEAD + 3)
        }
        _ => Length::Whole(HEAD + 2),
    }
}
