//! JSON, as far as the tool writes it.

use crate::place::Position;
use std::fmt;

/// A value of JSON.
#[derive(Clone, PartialEq, Eq, Debug)]
pub enum Json {
    /// `null`
    Null,
    /// `true` or `false`
    Truth(bool),
    /// An integer; it is written with all its digits.
    Number(i64),
    /// A text.
    Text(String),
    /// Values in order.
    List(Vec<Json>),
    /// Values by name, in order.
    Object(Vec<(&'static str, Json)>),
}

impl Json {
    /// The line and the column of a position, to stand in an object; none for none.
    pub fn position(position: Option<Position>) -> Vec<(&'static str, Json)> {
        let Some(Position { line, column }) = position else {
            return Vec::new();
        };
        vec![("line", line.into()), ("column", column.into())]
    }
}

impl From<bool> for Json {
    fn from(truth: bool) -> Json {
        Json::Truth(truth)
    }
}

impl From<i64> for Json {
    fn from(number: i64) -> Json {
        Json::Number(number)
    }
}

impl From<u8> for Json {
    fn from(number: u8) -> Json {
        Json::Number(number.into())
    }
}

impl From<u32> for Json {
    fn from(number: u32) -> Json {
        Json::Number(number.into())
    }
}

impl From<u64> for Json {
    fn from(number: u64) -> Json {
        Json::Number(i64::try_from(number).unwrap_or(i64::MAX))
    }
}

impl From<usize> for Json {
    fn from(number: usize) -> Json {
        Json::from(number as u64)
    }
}

impl From<&str> for Json {
    fn from(text: &str) -> Json {
        Json::Text(text.to_string())
    }
}

impl From<String> for Json {
    fn from(text: String) -> Json {
        Json::Text(text)
    }
}

impl<T: Into<Json>> From<Option<T>> for Json {
    fn from(value: Option<T>) -> Json {
        value.map_or(Json::Null, T::into)
    }
}

impl<T: Into<Json>> FromIterator<T> for Json {
    fn from_iter<I: IntoIterator<Item = T>>(values: I) -> Json {
        Json::List(values.into_iter().map(T::into).collect())
    }
}

impl fmt::Display for Json {
    fn fmt(&self, formatter: &mut fmt::Formatter) -> fmt::Result {
        match self {
            Json::Null => write!(formatter, "null"),
            Json::Truth(truth) => write!(formatter, "{truth}"),
            Json::Number(number) => write!(formatter, "{number}"),
            Json::Text(text) => write_text(formatter, text),
            Json::List(values) => {
                write!(formatter, "[")?;
                for (index, value) in values.iter().enumerate() {
                    let comma = if index == 0 { "" } else { "," };
                    write!(formatter, "{comma}{value}")?;
                }
                write!(formatter, "]")
            }
            Json::Object(fields) => {
                write!(formatter, "{{")?;
                for (index, (name, value)) in fields.iter().enumerate() {
                    let comma = if index == 0 { "" } else { "," };
                    write!(formatter, "{comma}\"{name}\":{value}")?;
                }
                write!(formatter, "}}")
            }
        }
    }
}

/// A text in quotes. `<` is escaped too, so that it may stand in a page.
fn write_text(formatter: &mut fmt::Formatter, text: &str) -> fmt::Result {
    write!(formatter, "\"")?;
    for sign in text.chars() {
        match sign {
            '"' => write!(formatter, "\\\"")?,
            '\\' => write!(formatter, "\\\\")?,
            '\n' => write!(formatter, "\\n")?,
            '<' | '\u{2028}' | '\u{2029}' | '\0'..='\x1F' | '\x7F' => {
                write!(formatter, "\\u{:04x}", u32::from(sign))?;
            }
            _ => write!(formatter, "{sign}")?,
        }
    }
    write!(formatter, "\"")
}

#[cfg(test)]
mod tests {
    use super::*;

    #[test]
    fn values_are_written_without_spaces() {
        let json = Json::Object(vec![
            ("file", "a".into()),
            ("accepted", true.into()),
            ("items", [1, -2].into_iter().map(i64::from).collect()),
            ("at", Json::from(None::<usize>)),
        ]);
        let text = r#"{"file":"a","accepted":true,"items":[1,-2],"at":null}"#;
        assert_eq!(json.to_string(), text);
    }

    #[test]
    fn a_text_keeps_no_sign_that_json_or_a_page_reads_otherwise() {
        let text = Json::from("a\"b\\c\nd\te</script>\u{7f}ü");
        assert_eq!(
            text.to_string(),
            r#""a\"b\\c\nd\u0009e\u003c/script>\u007fü""#
        );
    }

    #[test]
    fn an_integer_keeps_all_its_digits() {
        assert_eq!(Json::from(i64::MIN).to_string(), "-9223372036854775808");
    }
}
