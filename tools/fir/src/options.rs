//! The options of commands: what they are called, what they take, and how they are read.

use std::collections::VecDeque;
use std::ffi::{OsStr, OsString};

/// An option of a command.
#[derive(Debug)]
pub struct Opt {
    /// Its name, with its dashes.
    pub name: &'static str,
    /// What it takes.
    pub takes: Takes,
    /// What it does, for the help and for completion.
    pub words: &'static str,
}

/// What an option takes.
#[derive(Clone, Copy, PartialEq, Eq, Debug)]
pub enum Takes {
    /// Nothing.
    Nothing,
    /// One of these words.
    One(&'static [&'static str]),
    /// A file, under this name in the help.
    File(&'static str),
    /// Something else, under this name in the help.
    Value(&'static str),
}

impl Opt {
    /// The option with what it takes: `--budget N`.
    pub fn usage(&self) -> String {
        let name = self.name;
        match self.takes {
            Takes::Nothing => name.to_string(),
            Takes::One(words) => format!("{name} {}", words.join("|")),
            Takes::File(value) | Takes::Value(value) => format!("{name} {value}"),
        }
    }
}

/// The words of a command line behind its command, the options apart from the others.
#[derive(Debug)]
pub struct Words {
    /// The options with their values, in order; an empty value for those that take none.
    options: Vec<(&'static str, OsString)>,
    /// The other words that are not read yet.
    rest: VecDeque<OsString>,
}

impl Words {
    /// Takes the options out of the words, wherever they stand; behind `--` there are none.
    pub fn parse(known: &'static [Opt], words: &[OsString]) -> Result<Words, String> {
        let (mut options, mut rest) = (Vec::new(), VecDeque::new());
        let mut words = words.iter();
        while let Some(word) = words.next() {
            if word == "--" {
                rest.extend(words.cloned());
                break;
            }
            if !is_option(word) {
                rest.push_back(word.clone());
                continue;
            }
            let (name, given) = split(word)?;
            let found = known.iter().find(|option| option.name == name);
            let option = found.ok_or_else(|| format!("`{name}` is no option"))?;
            let value = match (option.takes, given) {
                (Takes::Nothing, Some(_)) => return Err(format!("{name} takes no value")),
                (Takes::Nothing, None) => OsString::new(),
                (_, Some(given)) => given,
                (_, None) => {
                    let next = words.next().cloned();
                    next.ok_or_else(|| format!("nothing follows {name}"))?
                }
            };
            options.push((option.name, value));
        }
        Ok(Words { options, rest })
    }

    /// Does an option without a value stand there?
    pub fn flag(&mut self, name: &str) -> Result<bool, String> {
        self.option(name).map(|value| value.is_some())
    }

    /// The value of an option; none if it does not stand there.
    pub fn option(&mut self, name: &str) -> Result<Option<OsString>, String> {
        let mut values = self.options(name);
        if values.len() > 1 {
            return Err(format!("{name} stands twice"));
        }
        Ok(values.pop())
    }

    /// The values of an option that may stand several times.
    pub fn options(&mut self, name: &str) -> Vec<OsString> {
        let named = self.options.iter().filter(|(option, _)| *option == name);
        named.map(|(_, value)| value.clone()).collect()
    }

    /// The next word.
    pub fn next(&mut self) -> Option<OsString> {
        self.rest.pop_front()
    }

    /// The next word as the name of a file.
    pub fn file(&mut self) -> Result<OsString, String> {
        self.next().ok_or_else(|| "no file is named".to_string())
    }

    /// All words that are left as names of files, of which there is one at least.
    pub fn files(&mut self) -> Result<Vec<OsString>, String> {
        let mut files = vec![self.file()?];
        files.extend(self.rest.drain(..));
        Ok(files)
    }

    /// Asks that no word is left.
    pub fn finish(&self) -> Result<(), String> {
        match self.rest.front() {
            Some(word) => Err(format!("`{}` is one too many", word.to_string_lossy())),
            None => Ok(()),
        }
    }
}

/// Is a word an option, and not a negative integer, or `-` alone?
fn is_option(word: &OsStr) -> bool {
    match word.as_encoded_bytes() {
        [b'-', next, ..] => !next.is_ascii_digit(),
        _ => false,
    }
}

/// The name of an option, and its value where `=` stands in the same word.
fn split(word: &OsStr) -> Result<(String, Option<OsString>), String> {
    let text = word.to_str();
    let text = text.ok_or_else(|| format!("`{}` is not in UTF-8", word.to_string_lossy()))?;
    Ok(match text.split_once('=') {
        Some((name, value)) if name.starts_with("--") => (name.into(), Some(value.into())),
        _ => (text.into(), None),
    })
}
