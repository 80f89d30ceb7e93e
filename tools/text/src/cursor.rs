//! A walk over the words, numbers and signs of one line.

use crate::names::{is_plain, numbered, taken, Registers};
use crate::vocabulary::{KINDS, LEVELS, MARKS, OWNERSHIPS};
use reference::{Integer, Kind, Level, Mark, Name, Ownership, Register, Type};
use std::cell::Cell;
use std::ops::Range;
use std::str::FromStr;

/// What is wrong with a line.
pub type Reason = String;

/// The part of a line that is not read yet.
pub struct Cursor<'a> {
    line: &'a str,
    rest: &'a str,
    /// What the registers of the version are called.
    registers: &'a Registers,
    /// The column where something else was expected last; at first, that of the first word.
    wrong: Cell<usize>,
}

impl<'a> Cursor<'a> {
    /// A line without its comment, in a version whose registers are called so.
    pub fn new(line: &'a str, registers: &'a Registers) -> Cursor<'a> {
        let code = line.split('#').next().unwrap_or_default();
        let rest = code.trim();
        let cursor = Cursor {
            line,
            rest,
            registers,
            wrong: Cell::new(1),
        };
        cursor.wrong_at(cursor.column());
        cursor
    }

    /// The column of what stands here, the first being 1.
    pub fn column(&self) -> usize {
        1 + self.line[..self.place()].chars().count()
    }

    /// The byte of the line that stands here, the first being 0.
    pub fn place(&self) -> usize {
        self.rest.as_ptr() as usize - self.line.as_ptr() as usize
    }

    /// The bytes of the line from one up to here, without the spaces before here.
    pub fn bytes_since(&self, first: usize) -> Range<usize> {
        let words = self.line[first..self.place()].trim_end();
        first..first + words.len()
    }

    /// The column of what was not expected, the first being 1.
    pub fn wrong_column(&self) -> usize {
        self.wrong.get()
    }

    /// Notes that what stands in a column was not expected.
    pub fn wrong_at(&self, column: usize) {
        self.wrong.set(column);
    }

    /// Is nothing left?
    pub fn at_end(&self) -> bool {
        self.rest.is_empty()
    }

    /// Asks that nothing is left.
    pub fn finish(&self) -> Result<(), Reason> {
        if self.at_end() {
            Ok(())
        } else {
            Err(self.expected("the end of the line"))
        }
    }

    /// The reason of a line that has something else here.
    pub fn expected(&self, what: &str) -> Reason {
        self.wrong_at(self.column());
        let found = self.rest.split_whitespace().next();
        match found {
            Some(found) => format!("expected {what}, found `{found}`"),
            None => format!("expected {what}, found the end of the line"),
        }
    }

    /// The same where a word is due; one with capital letters gets a hint, since none has any.
    pub fn expected_word(&self, what: &str) -> Reason {
        let capital = |sign: char| sign.is_ascii_uppercase();
        let hint = match self.peek_word().contains(capital) {
            true => "; words are written in small letters",
            false => "",
        };
        self.expected(what) + hint
    }

    /// The letters and digits that stand here.
    fn peek_word(&self) -> &'a str {
        let end = self
            .rest
            .find(|c: char| !c.is_ascii_alphanumeric() && c != '_');
        &self.rest[..end.unwrap_or(self.rest.len())]
    }

    /// The signs that stand here, up to a space or a sign that stands between words.
    fn peek_signs(&self) -> &'a str {
        let between = |sign: char| sign.is_whitespace() || ":,()[]=?.".contains(sign);
        let end = self.rest.find(between);
        &self.rest[..end.unwrap_or(self.rest.len())]
    }

    /// Goes past the first `length` bytes and the spaces after them.
    fn skip(&mut self, length: usize) {
        self.rest = self.rest[length..].trim_start();
    }

    /// Takes the word if it stands here.
    pub fn take_word(&mut self, word: &str) -> bool {
        let found = self.peek_word() == word;
        if found {
            self.skip(word.len());
        }
        found
    }

    /// Takes all the words if they stand here one after another.
    fn take_words(&mut self, words: &[&str]) -> bool {
        let before = self.rest;
        let found = words.iter().all(|word| self.take_word(word));
        if !found {
            self.rest = before;
        }
        found
    }

    /// Takes any word.
    pub fn word(&mut self) -> &'a str {
        let word = self.peek_word();
        self.skip(word.len());
        word
    }

    /// Takes the sign if it stands here.
    pub fn take(&mut self, sign: &str) -> bool {
        let found = self.rest.starts_with(sign);
        if found {
            self.skip(sign.len());
        }
        found
    }

    /// Asks for a sign.
    pub fn sign(&mut self, sign: &str) -> Result<(), Reason> {
        if self.take(sign) {
            Ok(())
        } else {
            Err(self.expected(&format!("`{sign}`")))
        }
    }

    /// Asks for a literal.
    pub fn literal(&mut self) -> Result<Integer, Reason> {
        let digits = self.rest.strip_prefix('-').unwrap_or(self.rest);
        let digits = digits.chars().take_while(char::is_ascii_alphanumeric);
        let length = digits.count() + usize::from(self.rest.starts_with('-'));
        if self.rest[length..].starts_with('.') {
            return Err(self.expected("an integer, which has no fraction"));
        }
        let literal = Integer::from_str(&self.rest[..length]);
        let literal = literal.map_err(|_| {
            let (least, greatest) = (Integer::MIN, Integer::MAX);
            self.expected(&format!("an integer of {least} to {greatest}"))
        })?;
        self.skip(length);
        Ok(literal)
    }

    /// Asks for a number of one byte.
    pub fn number(&mut self) -> Result<u8, Reason> {
        self.lettered("", "a number of 0 to 255")
    }

    /// Asks for the number of a block, which an image may have many of.
    pub fn block_number(&mut self) -> Result<usize, Reason> {
        let word = self.peek_word();
        let number = word.parse().map_err(|_| self.expected("a number"))?;
        self.skip(word.len());
        Ok(number)
    }

    /// Asks for a byte of two hexadecimal digits.
    pub fn byte(&mut self) -> Result<u8, Reason> {
        let word = self.peek_word();
        let byte = u8::from_str_radix(word, 16)
            .ok()
            .filter(|_| word.len() == 2);
        let byte = byte.ok_or_else(|| self.expected("two hexadecimal digits"))?;
        self.skip(word.len());
        Ok(byte)
    }

    /// Asks for a register, by its number or its name.
    pub fn register(&mut self) -> Result<Register, Reason> {
        let word = self.peek_word();
        let Some(register) = self.registers.register(word) else {
            return Err(match is_plain(word) || !self.peek_signs().is_ascii() {
                true => self.unknown_register(),
                false => self.expected("a register such as r0") + integer_hint(word),
            });
        };
        self.skip(word.len());
        Ok(register)
    }

    /// The reason of a line that names a register which is not declared.
    pub fn unknown_register(&self) -> Reason {
        self.wrong_at(self.column());
        let word = self.peek_signs();
        let hint = match self.registers.nearest(word) {
            Some(near) => format!("; did you mean `{near}`?"),
            None => String::new(),
        };
        format!("no register is called `{word}`{hint}")
    }

    /// Is the word that stands here a register?
    pub fn at_register(&self) -> bool {
        self.registers.register(self.peek_word()).is_some()
    }

    /// Is the word that stands here one that a register could be called, and is it assigned?
    pub fn at_unknown_register(&self) -> bool {
        let word = self.peek_word();
        is_plain(word) && self.rest[word.len()..].trim_start().starts_with('=')
    }

    /// Asks for a register that is declared: its number, or its name.
    pub fn declared(&mut self) -> Result<Result<Register, String>, Reason> {
        let word = self.peek_word();
        if let Some(reason) = taken(word) {
            self.wrong_at(self.column());
            return Err(reason);
        }
        let declared = match numbered(word, "r") {
            Some(register) => Ok(register),
            _ if !self.peek_signs().is_ascii() => {
                self.wrong_at(self.column());
                let word = self.peek_signs();
                return Err(format!(
                    "`{word}` is no name: names have the letters a to z, digits and `_`"
                ));
            }
            None if is_plain(word) => Err(word.to_string()),
            None => return Err(self.expected("a register such as r0, or a name for it")),
        };
        self.skip(word.len());
        Ok(declared)
    }

    /// Asks for a name.
    pub fn name(&mut self) -> Result<Name, Reason> {
        self.lettered("x", "a name such as x0")
    }

    fn lettered(&mut self, letter: &str, what: &str) -> Result<u8, Reason> {
        let word = self.peek_word();
        let number = numbered(word, letter).ok_or_else(|| self.expected(what))?;
        self.skip(word.len());
        Ok(number)
    }

    /// Asks for a type.
    pub fn ty(&mut self) -> Result<Type, Reason> {
        if let Some(digits) = self.peek_word().strip_prefix("0x") {
            let byte = u8::from_str_radix(digits, 16).map_err(|_| self.expected("a type byte"))?;
            self.word();
            return Ok(Type(byte));
        }
        let named = OWNERSHIPS.iter().skip(1);
        let ownership = named.clone().position(|words| self.take_words(words));
        let ownership = ownership.map_or(0, |position| position + 1);
        let kind = KINDS.iter().position(|words| self.take_words(words));
        let kind = kind.ok_or_else(|| self.expected_word("a type such as int or own vector"))?;
        Ok(Type::new(Kind(kind as u8), Ownership(ownership as u8)))
    }

    /// Asks for a register with its type.
    pub fn typed(&mut self) -> Result<(Register, Type), Reason> {
        let register = self.register()?;
        self.sign(":")?;
        Ok((register, self.ty()?))
    }

    /// Asks for a level.
    pub fn level(&mut self) -> Result<Level, Reason> {
        let level = LEVELS.iter().position(|word| self.take_word(word));
        match level {
            Some(level) => Ok(Level(level as u8)),
            None => {
                let number = self.number();
                number
                    .map_err(|_| self.expected_word("portal, staff or factory"))
                    .map(Level)
            }
        }
    }

    /// Asks for a mark.
    pub fn mark(&mut self) -> Result<Mark, Reason> {
        if self.take_word("mark") {
            return self.number().map(Mark);
        }
        let mark = MARKS.iter().position(|word| self.take_word(word));
        let mark = mark.ok_or_else(|| self.expected_word("quiet or reflective"))?;
        Ok(Mark(mark as u8))
    }

    /// Asks for items between two signs, with commas between them.
    pub fn list<T>(
        &mut self,
        open: &str,
        close: &str,
        mut item: impl FnMut(&mut Self) -> Result<T, Reason>,
    ) -> Result<Vec<T>, Reason> {
        self.sign(open)?;
        let mut items = Vec::new();
        while !self.take(close) {
            if !items.is_empty() {
                self.sign(",")?;
            }
            items.push(item(self)?);
        }
        if items.len() > usize::from(u8::MAX) {
            return Err("a record lists at most 255 registers".to_string());
        }
        Ok(items)
    }
}

/// A hint where an integer stands in the place of a register.
fn integer_hint(word: &str) -> &'static str {
    let digits = !word.is_empty() && word.bytes().all(|byte| byte.is_ascii_digit());
    match digits {
        true => "; an integer stands behind `lit` alone",
        false => "",
    }
}
