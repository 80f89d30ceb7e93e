//! A text laid out anew: the same words and comments, in the spaces and lines of the form.

use crate::assemble::assemble;
use crate::error::Error;

/// The spaces of one step to the right.
const STEP: &str = "  ";
/// The spaces before a comment that stands behind code.
const APART: usize = 2;

/// The same text laid out anew, which makes the same image; or what is wrong with it.
///
/// Words and comments stay as they are. Versions stand at the left, with a blank line and the
/// comments that belong to them before them; their registers, level and blocks stand one step
/// to the right, instructions two. Comments stand as far to the right as what they stand
/// before, and those behind code one below the other. Of several blank lines one is left.
pub fn lay_out(text: &str) -> Result<String, Error> {
    assemble(text)?;
    let rows: Vec<Row> = text.lines().map(Row::of).collect();
    let lines = lines(&rows);
    let end = match text.split('\n').next() {
        Some(first) if first.ends_with('\r') => "\r\n",
        _ => "\n",
    };
    Ok(lines.iter().map(|line| format!("{line}{end}")).collect())
}

/// A line of a text.
enum Row {
    /// One without words.
    Blank,
    /// A comment alone, and whether it stands at the left.
    Comment(String, bool),
    /// Code, how many steps to the right it stands, and the comment behind it.
    Code(String, usize, Option<String>),
}

impl Row {
    /// That of a line.
    fn of(line: &str) -> Row {
        let (code, comment) = match line.find('#') {
            Some(at) => (&line[..at], Some(line[at..].trim_end().to_string())),
            None => (line, None),
        };
        let words = words(code);
        match (words.first(), comment) {
            (None, None) => Row::Blank,
            (None, Some(comment)) => Row::Comment(comment, line.starts_with('#')),
            (Some(&first), comment) => Row::Code(spaced(&words), steps_of(first), comment),
        }
    }

    /// How wide code is that has a comment behind it.
    fn comment_width(&self) -> Option<usize> {
        match self {
            Row::Code(code, steps, Some(_)) => Some(steps * STEP.len() + code.chars().count()),
            _ => None,
        }
    }
}

/// How many steps to the right a line stands that begins with a word.
fn steps_of(first: &str) -> usize {
    match first {
        "version" => 0,
        "registers" | "level" | "block" => 1,
        _ => 2,
    }
}

/// The words and signs of code: names and numbers, `->`, and each other sign alone.
fn words(code: &str) -> Vec<&str> {
    let (mut words, mut rest) = (Vec::new(), code.trim());
    while let Some(first) = rest.chars().next() {
        let plain = |sign: char| sign.is_ascii_alphanumeric() || sign == '_';
        let behind = rest[first.len_utf8()..].find(|sign: char| !plain(sign));
        let word = first.len_utf8() + behind.unwrap_or(rest.len() - first.len_utf8());
        let length = match first {
            '-' if rest.starts_with("->") => "->".len(),
            '-' => word,
            _ if plain(first) => word,
            _ => first.len_utf8(),
        };
        words.push(&rest[..length]);
        rest = rest[length..].trim_start();
    }
    words
}

/// The counts that an odd image says, whose `=` has no spaces around it.
const COUNTS: [&str; 3] = ["parameters", "blocks", "count"];

/// Words with the spaces between them.
fn spaced(words: &[&str]) -> String {
    let selects = words.contains(&"?");
    let mut line = String::new();
    for (place, &word) in words.iter().enumerate() {
        let before = place.checked_sub(1).map(|before| words[before]);
        let of_count = |at: Option<&str>| at.is_some_and(|word| COUNTS.contains(&word));
        let count = place.checked_sub(2).map(|count| words[count]);
        let joined = match (before, word) {
            (None | Some("(" | "[" | "."), _) | (_, "," | ")" | "]" | "." | "(") => true,
            (Some(before), "[") => before != "vec",
            (_, ":") => !selects,
            (before, "=") => of_count(before),
            (Some("="), _) => of_count(count),
            _ => false,
        };
        if !joined {
            line.push(' ');
        }
        line += word;
    }
    line
}

/// What stands behind a row and before it.
#[derive(Clone, Copy, Default)]
struct Around {
    /// The steps of the next code, from the row itself on.
    next: Option<usize>,
    /// Do comments alone stand between, so that the row belongs to that code?
    attached: bool,
    /// The steps of the last code before the row.
    last: Option<usize>,
    /// The width before the comment behind the row's code.
    width: usize,
}

/// What stands around each of these rows.
fn around(rows: &[Row]) -> Vec<Around> {
    let mut all = vec![Around::default(); rows.len()];
    let (mut next, mut attached, mut width) = (None, false, 0);
    for (row, around) in rows.iter().zip(&mut all).rev() {
        width = row.comment_width().map_or(0, |own| own.max(width));
        match row {
            Row::Blank => attached = false,
            Row::Comment(..) => {}
            Row::Code(_, steps, _) => (next, attached) = (Some(*steps), true),
        }
        (around.next, around.attached, around.width) = (next, attached, width);
    }
    let (mut last, mut width) = (None, 0);
    for (row, around) in rows.iter().zip(&mut all) {
        width = row.comment_width().map_or(0, |_| around.width.max(width));
        (around.last, around.width) = (last, width);
        if let Row::Code(_, steps, _) = row {
            last = Some(*steps);
        }
    }
    all
}

/// The lines of a text that has these rows.
fn lines(rows: &[Row]) -> Vec<String> {
    let mut lines: Vec<String> = Vec::new();
    let mut behind_code = false;
    for (row, around) in rows.iter().zip(around(rows)) {
        let line = match row {
            Row::Blank => String::new(),
            Row::Comment(comment, at_left) => {
                STEP.repeat(comment_steps(around, *at_left)) + comment
            }
            Row::Code(code, steps, None) => STEP.repeat(*steps) + code,
            Row::Code(code, steps, Some(comment)) => {
                let (code, width) = (STEP.repeat(*steps) + code, around.width + APART);
                format!("{code:<width$}{comment}")
            }
        };
        let begins_version = around.attached && around.next == Some(0);
        if begins_version && behind_code {
            lines.push(String::new());
        }
        if !(line.is_empty() && lines.last().is_none_or(String::is_empty)) {
            lines.push(line);
        }
        behind_code = matches!(row, Row::Code(..));
    }
    if lines.last().is_some_and(String::is_empty) {
        lines.pop();
    }
    lines
}

/// How many steps to the right a comment stands: as many as the code right behind it. One that
/// a blank line follows stands as the code behind that; before a new version and at the end it
/// stays at the left, or goes below the code before it.
fn comment_steps(around: Around, at_left: bool) -> usize {
    match around.next {
        Some(next) if around.attached || next > 0 => next,
        _ if at_left => 0,
        _ => around.last.unwrap_or(0),
    }
}
