//! JSON, as far as the tests read it.

use std::collections::BTreeMap;
use std::iter::Peekable;
use std::str::Chars;

/// A value of JSON.
#[derive(Clone, PartialEq, Debug)]
pub enum Value {
    Null,
    Truth(bool),
    Number(i64),
    Text(String),
    List(Vec<Value>),
    Object(BTreeMap<String, Value>),
}

impl Value {
    /// The value of a text that is whole.
    pub fn of(text: &str) -> Value {
        let mut signs = text.chars().peekable();
        let value = Value::read(&mut signs);
        assert_eq!(signs.next(), None, "more than a value");
        value
    }

    /// The value that stands here, with the spaces around it.
    fn read(signs: &mut Peekable<Chars>) -> Value {
        space(signs);
        let value = Value::read_bare(signs);
        space(signs);
        value
    }

    fn read_bare(signs: &mut Peekable<Chars>) -> Value {
        match signs.peek() {
            Some('a'..='z') => word(signs),
            Some('"') => Value::Text(text(signs)),
            Some('[') => Value::List(listed(signs, ']', Value::read)),
            Some('{') => {
                let fields = listed(signs, '}', |signs| {
                    space(signs);
                    let name = text(signs);
                    space(signs);
                    assert_eq!(signs.next(), Some(':'));
                    (name, Value::read(signs))
                });
                Value::Object(fields.into_iter().collect())
            }
            _ => {
                let mut digits = String::new();
                while let Some(sign) = signs.next_if(|sign| *sign == '-' || sign.is_ascii_digit()) {
                    digits.push(sign);
                }
                Value::Number(digits.parse().expect("a number"))
            }
        }
    }

    /// The values of a list.
    pub fn list(&self) -> &[Value] {
        match self {
            Value::List(values) => values,
            other => panic!("no list: {other:?}"),
        }
    }

    /// A text.
    pub fn text(&self) -> &str {
        match self {
            Value::Text(text) => text,
            other => panic!("no text: {other:?}"),
        }
    }

    /// The value of a field.
    pub fn field(&self, name: &str) -> &Value {
        match self {
            Value::Object(fields) => &fields[name],
            other => panic!("no object: {other:?}"),
        }
    }
}

/// Goes past spaces.
fn space(signs: &mut Peekable<Chars>) {
    while signs.next_if(|sign| sign.is_ascii_whitespace()).is_some() {}
}

/// `null`, `true` or `false`.
fn word(signs: &mut Peekable<Chars>) -> Value {
    let mut word = String::new();
    while let Some(sign) = signs.next_if(char::is_ascii_lowercase) {
        word.push(sign);
    }
    match word.as_str() {
        "null" => Value::Null,
        "true" => Value::Truth(true),
        "false" => Value::Truth(false),
        _ => panic!("no value: {word}"),
    }
}

/// What stands between two brackets, with commas between.
fn listed<T>(
    signs: &mut Peekable<Chars>,
    close: char,
    read: impl Fn(&mut Peekable<Chars>) -> T,
) -> Vec<T> {
    let mut values = Vec::new();
    signs.next();
    space(signs);
    while signs.next_if_eq(&close).is_none() {
        if !values.is_empty() {
            assert_eq!(signs.next(), Some(','));
        }
        values.push(read(signs));
    }
    values
}

/// A text in quotes.
fn text(signs: &mut Peekable<Chars>) -> String {
    let mut text = String::new();
    assert_eq!(signs.next(), Some('"'));
    loop {
        match signs.next().expect("the text ends") {
            '"' => return text,
            '\\' => match signs.next().expect("an escape ends") {
                'n' => text.push('\n'),
                't' => text.push('\t'),
                'u' => {
                    let digits: String = signs.take(4).collect();
                    let number = u32::from_str_radix(&digits, 16).expect("four digits");
                    text.push(char::from_u32(number).expect("a sign"));
                }
                sign => text.push(sign),
            },
            sign => text.push(sign),
        }
    }
}
