//! What a text calls the registers of its versions.

use crate::vocabulary::KEYWORDS;
use reference::Register;
use std::collections::BTreeMap;

/// What a text calls the registers of a version, by number; none for one that has no name.
#[derive(Clone, Default, PartialEq, Eq, Debug)]
pub struct Registers(Vec<Option<String>>);

/// Those of a version that names none.
static UNNAMED: Registers = Registers(Vec::new());

impl Registers {
    /// The name of a register, or `r` and its number where it has none.
    pub fn text(&self, register: Register) -> String {
        let name = self.0.get(usize::from(register)).cloned().flatten();
        name.unwrap_or_else(|| format!("r{register}"))
    }

    /// The register of a name.
    pub fn number(&self, name: &str) -> Option<Register> {
        let is_it = |there: &Option<String>| there.as_deref() == Some(name);
        let place = self.0.iter().position(is_it)?;
        Register::try_from(place).ok()
    }

    /// The register that a word means: by its name, or as `r` and a number.
    pub fn register(&self, word: &str) -> Option<Register> {
        numbered(word, "r").or_else(|| self.number(word))
    }

    /// How many registers are declared so far.
    pub(crate) fn count(&self) -> usize {
        self.0.len()
    }

    /// Declares the next register.
    pub(crate) fn declare(&mut self, name: Option<String>) {
        self.0.push(name);
    }

    /// The name that reads most like a word, where one does; or the word itself in small
    /// letters, where that is a register.
    pub fn nearest(&self, word: &str) -> Option<String> {
        let small = word.to_ascii_lowercase();
        if small != word && self.register(&small).is_some() {
            return Some(small);
        }
        let short = |word: &str| word.len() <= LONGEST;
        let names = self.0.iter().flatten();
        let names = names.filter(|name| short(name) && short(word));
        let near = names.map(|name| (distance(word, name), name));
        let most = word.chars().count() / A_PART;
        let near = near.filter(|(distance, _)| *distance <= most);
        let nearest = near.min_by_key(|(distance, _)| *distance);
        nearest.map(|(_, name)| name.clone())
    }
}

/// The most letters of words that are compared.
const LONGEST: usize = 64;

/// One of so many letters of a word may differ from what is meant.
const A_PART: usize = 3;

/// The names of the registers of all versions, by function and version.
#[derive(Clone, Default, PartialEq, Eq, Debug)]
pub struct Names(BTreeMap<(u8, u8), Registers>);

impl Names {
    /// Those of a version.
    pub fn of(&self, function: u8, version: u8) -> &Registers {
        self.0.get(&(function, version)).unwrap_or(&UNNAMED)
    }

    /// Every register that has a name, with its version.
    pub fn all(&self) -> impl Iterator<Item = ((u8, u8), Register, &str)> {
        self.0.iter().flat_map(|(&version, registers)| {
            let registers = (0..).zip(&registers.0);
            registers.filter_map(move |(register, name)| {
                let name = name.as_deref()?;
                Some((version, register, name))
            })
        })
    }

    /// Adds those of a version.
    pub(crate) fn add(&mut self, function: u8, version: u8, registers: Registers) {
        self.0.insert((function, version), registers);
    }
}

/// May a register be called so, as far as the signs of the word go?
pub fn is_plain(word: &str) -> bool {
    let mut signs = word.chars();
    let first = signs.next().is_some_and(|sign| sign.is_ascii_alphabetic());
    let rest = signs.all(|sign| sign.is_ascii_alphanumeric() || sign == '_');
    first && rest && !KEYWORDS.contains(&word) && !is_numbered(word)
}

/// Why a register may not be called so, where the word has a meaning of its own.
pub fn taken(word: &str) -> Option<String> {
    if KEYWORDS.contains(&word) {
        return Some(format!(
            "`{word}` is a word of the text form, and names no register"
        ));
    }
    let reads_as = match word.starts_with('x') {
        true => "a name of a call",
        false => "a number that no register has",
    };
    let is_it = is_numbered(word) && numbered(word, "r").is_none();
    is_it.then(|| format!("`{word}` reads as {reads_as}, and names no register"))
}

/// Does a word read as a register or a name: `r` or `x` and digits?
pub fn is_numbered(word: &str) -> bool {
    let digits = word.strip_prefix(['r', 'x']).unwrap_or_default();
    !digits.is_empty() && digits.bytes().all(|byte| byte.is_ascii_digit())
}

/// The number of one byte after a letter.
pub fn numbered(word: &str, letter: &str) -> Option<u8> {
    let digits = word.strip_prefix(letter)?;
    let plain = digits.bytes().all(|byte| byte.is_ascii_digit());
    plain.then(|| digits.parse().ok()).flatten()
}

/// How many letters are put in, left out, changed or swapped with the next from one word to
/// another.
fn distance(from: &str, to: &str) -> usize {
    let (from, to): (Vec<char>, Vec<char>) = (from.chars().collect(), to.chars().collect());
    let mut rows = vec![vec![0; to.len() + 1]; from.len() + 1];
    rows[0] = (0..=to.len()).collect();
    for i in 1..=from.len() {
        rows[i][0] = i;
        for j in 1..=to.len() {
            let changed = rows[i - 1][j - 1] + usize::from(from[i - 1] != to[j - 1]);
            let least = changed.min(rows[i - 1][j] + 1).min(rows[i][j - 1] + 1);
            let swapped = i > 1 && j > 1 && from[i - 1] == to[j - 2] && from[i - 2] == to[j - 1];
            rows[i][j] = match swapped {
                true => least.min(rows[i - 2][j - 2] + 1),
                false => least,
            };
        }
    }
    rows[from.len()][to.len()]
}
