//! `fir explain`: what `docs/LANGUAGE.md` says of a refusal, or of an end of a run, and
//! `docs/TEXT-FORM.md` of an instruction.

use std::collections::BTreeSet;

/// The document.
const DOCUMENT: &str = include_str!("../../../docs/LANGUAGE.md");

/// The document with the table of instructions.
const TEXT_FORM: &str = include_str!("../../../docs/TEXT-FORM.md");

/// What opens a part of the document, as that of the questions to an image.
const PART: &str = "## ";
/// What opens the section of a refusal or of an end.
const SECTION: &str = "### ";
/// What opens and closes a script.
const FENCE: &str = "```";
/// How wide the subjects are in the list.
const SUBJECT_WIDTH: usize = 9;
/// How far a script stands from the left.
const INDENT: &str = "    ";

/// What is printed above the list of sections.
const OPENING: &str = "What a budget says, and the questions in the order in which they are put.
`fir explain N` says more of a question, `fir explain UNDEF` of UNDEF, `fir explain mend`
of the mend beside a refusal, `fir explain skip` of an instruction.
";

/// The subject that a word names, in any case of letters; all where there is no word.
pub fn parse(word: Option<&str>) -> Result<Option<&'static str>, String> {
    let Some(word) = word else {
        return Ok(None);
    };
    let words = instructions().flat_map(|instruction| instruction.words());
    let mut known = subjects().chain(words);
    let subject = known.find(|subject| subject.eq_ignore_ascii_case(word));
    let wrong = || {
        format!(
            "`{word}` is no question's number, no word such as UNDEF and no instruction's; `fir explain` lists them"
        )
    };
    subject.map(Some).ok_or_else(wrong)
}

/// What can be explained, in the order of the document.
fn subjects() -> impl Iterator<Item = &'static str> {
    let headings = DOCUMENT.lines().filter_map(heading);
    headings.map(|(subject, _)| subject)
}

/// The words that can be explained.
pub fn words() -> Vec<&'static str> {
    let instructions: BTreeSet<&str> = instructions().flat_map(|row| row.words().last()).collect();
    subjects().chain(instructions).collect()
}

/// What is printed of a subject that the document has, or of all.
pub fn text(subject: Option<&str>) -> String {
    let told = subject.and_then(|subject| section(subject).or_else(|| rows(subject)));
    told.unwrap_or_else(list)
}

/// A row of the table of instructions.
#[derive(Clone, Copy)]
struct Instruction {
    /// An example.
    example: &'static str,
    /// Its kind and its name, such as `35 SKIP`.
    kind: &'static str,
    /// What it does.
    does: &'static str,
}

impl Instruction {
    /// Its name, and the word by which its example says what it is.
    fn words(self) -> impl Iterator<Item = &'static str> {
        let name = self.kind.split(' ').next_back();
        let told = self.example.split_once(" = ");
        let told = told.filter(|(before, _)| !before.contains(' '));
        let first = told.map_or(self.example, |(_, behind)| behind);
        name.into_iter().chain(first.split(' ').next())
    }
}

/// The rows of the table of instructions.
fn instructions() -> impl Iterator<Item = Instruction> {
    TEXT_FORM.lines().filter_map(|line| {
        let line = line.strip_prefix("| `")?.strip_suffix(" |")?;
        let (example, rest) = line.split_once("` | ")?;
        let (kind, does) = rest.split_once(" | ")?;
        let number = kind.split(' ').next()?;
        number.parse::<u16>().ok()?;
        let kind = kind.contains(' ').then_some(kind)?;
        Some(Instruction {
            example,
            kind,
            does,
        })
    })
}

/// What is printed of an instruction: an example of each form, and what it does.
fn rows(word: &str) -> Option<String> {
    let is_it = |row: &Instruction| row.words().any(|there| there.eq_ignore_ascii_case(word));
    let rows = instructions().filter(is_it);
    let rows = rows.map(|row| format!("{}: {}\n{INDENT}{}\n", row.kind, row.example, row.does));
    let rows: String = rows.collect();
    (!rows.is_empty()).then_some(rows)
}

/// The subject and the words of the heading of a section: the number of a question, or
/// how a run ends.
fn heading(line: &str) -> Option<(&str, &str)> {
    line.strip_prefix(SECTION)?.split_once(": ")
}

/// The section of a subject, its scripts indented; none where there is none.
fn section(subject: &str) -> Option<String> {
    let is_it = |line: &str| heading(line).is_some_and(|(there, _)| there == subject);
    let mut lines = DOCUMENT.lines().skip_while(|line| !is_it(line));
    let (subject, words) = heading(lines.next()?)?;
    let mut section = format!("{subject}: {words}\n");
    let mut indent = "";
    for line in lines {
        if line.starts_with(FENCE) {
            indent = if indent.is_empty() { INDENT } else { "" };
        } else if indent.is_empty() && (line.starts_with(SECTION) || line.starts_with(PART)) {
            break;
        } else if line.is_empty() {
            section.push('\n');
        } else {
            section += &format!("{indent}{line}\n");
        }
    }
    section.truncate(section.trim_end().len());
    section.push('\n');
    Some(section)
}

/// A line for each section, under the part of the document that it stands in.
fn list() -> String {
    let (mut list, mut part) = (OPENING.to_string(), None);
    for line in DOCUMENT.lines() {
        if let Some(words) = line.strip_prefix(PART) {
            part = Some(words);
        } else if let Some((subject, words)) = heading(line) {
            if let Some(part) = part.take() {
                list += &format!("\n{part}:\n");
            }
            list += &format!("{subject:>SUBJECT_WIDTH$}  {words}\n");
        }
    }
    let told = words().split_off(subjects().count());
    list + &format!("\nInstructions:\n{INDENT}{}\n", told.join(" "))
}

#[cfg(test)]
mod tests {
    use super::*;
    use crate::refusal::rule;

    #[test]
    fn headings_are_the_rules_in_the_words_of_refusals() {
        let question = |line| {
            let (subject, words): (&str, &str) = heading(line)?;
            Some((subject.parse().ok()?, words))
        };
        let headings: Vec<(u8, &str)> = DOCUMENT.lines().filter_map(question).collect();
        for &(number, words) in &headings {
            assert_eq!(words, rule(number));
        }
        let mut numbers: Vec<u8> = headings.iter().map(|&(number, _)| number).collect();
        numbers.sort_unstable();
        assert!(numbers.into_iter().eq(1..=23));
    }
}
