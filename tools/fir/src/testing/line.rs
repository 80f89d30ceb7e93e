//! The tests that stand in the comments of a text: `# test 0.0 15 -75 55: DONE 1`.

use crate::arguments::Argument;
use crate::command::{level_of, parse_entry, parse_then, plain_steps, Call, RUN_BUDGET};
use crate::place::Position;
use library::FACTORY;
use std::ffi::OsStr;
use std::fmt;

/// The word that makes a comment a test.
const TEST: &str = "test";

/// What is asked of a script.
#[derive(Clone, PartialEq, Eq, Debug)]
pub enum Asked {
    /// The questions to its image.
    Check,
    /// A run.
    Run(Box<Call>),
}

/// How many steps are expected.
#[derive(Clone, Copy, PartialEq, Eq, Debug)]
pub enum Steps {
    /// Any.
    Any,
    /// So many.
    After(u32),
    /// So many at most.
    Within(u32),
}

/// What is expected.
#[derive(Clone, PartialEq, Eq, Debug)]
pub struct Expected {
    /// How it ends, in the words of `fir run` or `fir check`: `DONE [1, 2]`, `refused by 8`.
    pub end: String,
    /// The offset of a refusal or the number of accepted versions, where it is written.
    pub number: Option<usize>,
    /// The steps.
    pub steps: Steps,
}

/// A test of a script.
#[derive(Clone, PartialEq, Eq, Debug)]
pub struct Test {
    /// Where it stands.
    pub position: Position,
    /// What is asked, as it is written.
    pub words: String,
    /// What is asked.
    pub asked: Asked,
    /// What is expected.
    pub expected: Expected,
}

/// A test that is not in form.
#[derive(Clone, PartialEq, Eq, Debug)]
pub struct Malformed {
    /// Where it is wrong.
    pub position: Position,
    /// Why.
    pub reason: String,
}

/// The column of what is wrong, and why.
type Wrong = (usize, String);

/// A word of a line, with its column.
#[derive(Clone, Copy, PartialEq, Eq, Debug)]
struct Word<'t> {
    column: usize,
    text: &'t str,
}

impl Expected {
    /// Is this what came: an end, with its number and its steps?
    pub fn is(&self, end: &str, number: Option<usize>, steps: Option<u32>) -> bool {
        let right_steps = match self.steps {
            Steps::Any => true,
            Steps::After(due) => steps == Some(due),
            Steps::Within(most) => steps.is_some_and(|taken| taken <= most),
        };
        self.end == end && (self.number.is_none() || self.number == number) && right_steps
    }
}

impl fmt::Display for Expected {
    fn fmt(&self, formatter: &mut fmt::Formatter) -> fmt::Result {
        let Expected { end, number, steps } = self;
        write!(formatter, "{}", numbered(end, *number))?;
        match steps {
            Steps::Any => Ok(()),
            Steps::After(steps) => write!(formatter, " after {}", steps_of(*steps)),
            Steps::Within(steps) => write!(formatter, " within {}", steps_of(*steps)),
        }
    }
}

/// So many steps, in words.
pub fn steps_of(steps: u32) -> String {
    crate::number::many(steps as usize, "step")
}

/// An end with its number: `refused by 8 at 24`, `accepted 3`.
pub fn numbered(end: &str, number: Option<usize>) -> String {
    match number {
        None => end.to_string(),
        Some(versions) if end == ACCEPTED => format!("{end} {versions}"),
        Some(offset) => format!("{end} at {offset}"),
    }
}

/// The end of an image that passes all questions.
pub const ACCEPTED: &str = "accepted";

/// The tests of a text, each with its line, or what is wrong with it.
pub fn tests(text: &str) -> Vec<(&str, Result<Test, Malformed>)> {
    let lines = (1..).zip(text.lines());
    let tests = lines.filter_map(|(number, line)| {
        let at = |column| Position {
            line: number,
            column,
        };
        let test = of_line(line)?.map(|(column, test)| Test {
            position: at(column),
            ..test
        });
        let test = test.map_err(|(column, reason)| Malformed {
            position: at(column),
            reason,
        });
        Some((line, test))
    });
    tests.collect()
}

/// The test of a line with its column, or what is wrong with it; none where the comment is none.
fn of_line(line: &str) -> Option<Result<(usize, Test), Wrong>> {
    let (code, comment) = line.split_once('#')?;
    let body = comment.trim_start();
    let word = body.split(|sign: char| !sign.is_alphanumeric()).next()?;
    let column = column_of(line, body);
    if word != TEST {
        let wrong = meant(word, &body[word.len()..])?;
        return Some(Err((column, wrong)));
    }
    if !code.trim().is_empty() {
        let reason = "a test stands on a line of its own".to_string();
        return Some(Err((column, reason)));
    }
    let rest = body[word.len()..].split('#').next().unwrap_or_default();
    Some(parse(line, rest).map(|test| (column, test)))
}

/// Words for a comment that is no test but reads like one.
fn meant(word: &str, rest: &str) -> Option<String> {
    let word = word.to_ascii_lowercase();
    let like = [TEST, "tests"].contains(&&*word);
    let entry = rest.split([' ', '\t', ':']).find(|word| !word.is_empty())?;
    let asks = entry == "check" || parse_entry(entry).is_ok();
    (like && asks).then(|| format!("a test begins with the word `{TEST}`"))
}

/// The column of a part of a line.
fn column_of(line: &str, part: &str) -> usize {
    let before = part.as_ptr() as usize - line.as_ptr() as usize;
    1 + line[..before].chars().count()
}

/// The test of what stands behind its word.
fn parse(line: &str, rest: &str) -> Result<Test, Wrong> {
    let rest = rest.trim_end();
    let end = column_of(line, &rest[rest.len()..]);
    let Some((asked, expected)) = rest.rsplit_once(':') else {
        let reason = "a test has `:` and a result such as DONE 1 behind what is run".to_string();
        return Err((end, reason));
    };
    let behind = column_of(line, expected);
    let (before, expected) = (words(line, asked), words(line, expected));
    let asked_of = Asked::parse(&before, column_of(line, asked))?;
    let expected = Expected::parse(&expected, end.max(behind), &asked_of)?;
    Ok(Test {
        position: Position { line: 0, column: 0 },
        words: asked.trim().to_string(),
        asked: asked_of,
        expected,
    })
}

/// The words of a part of a line; a vector is one word, with its spaces.
fn words<'t>(line: &str, part: &'t str) -> Vec<Word<'t>> {
    let (mut words, mut begin, mut inside) = (Vec::new(), None, false);
    for (at, sign) in part.char_indices().chain([(part.len(), ' ')]) {
        let ends = sign.is_whitespace() && (!inside || at == part.len());
        match (begin, ends) {
            (Some(first), true) => {
                let text = &part[first..at];
                let column = column_of(line, text);
                words.push(Word { column, text });
                (begin, inside) = (None, false);
            }
            (None, false) if !sign.is_whitespace() => {
                (begin, inside) = (Some(at), sign == '[');
            }
            _ => inside = inside && sign != ']',
        }
    }
    words
}

impl Asked {
    /// What the words before the colon ask for; they begin in a column.
    fn parse(words: &[Word], column: usize) -> Result<Asked, Wrong> {
        let Some((first, rest)) = words.split_first() else {
            let reason = "a test names a version such as 0.0, or `check`".to_string();
            return Err((column, reason));
        };
        if first.text == "check" {
            return match rest.first() {
                None => Ok(Asked::Check),
                Some(word) => Err(word.wrong(format!("`{}` is one too many", word.text))),
            };
        }
        let entry = parse_entry(first.text).map_err(|reason| first.wrong(reason))?;
        let mut call = Call {
            file: "".into(),
            level: FACTORY,
            entry,
            arguments: Vec::new(),
            budget: RUN_BUDGET,
            then: Vec::new(),
        };
        let (mut rest, mut seen) = (rest.iter(), Vec::new());
        while let Some(word) = rest.next() {
            match word.text.strip_prefix("--") {
                Some(option) => {
                    let (option, given) = word.split(option);
                    once(option, word, &mut seen)?;
                    let value = given.or_else(|| rest.next().copied());
                    parse_option(&mut call, option, word, value)?;
                }
                None => {
                    let argument = Argument::parse(word.text);
                    call.arguments
                        .push(argument.map_err(|reason| word.wrong(reason))?);
                }
            }
        }
        call.then.sort_by_key(|then| then.step);
        Ok(Asked::Run(Box::new(call)))
    }
}

/// Asks that an option stands once, but for `--then`.
fn once<'t>(option: &'t str, word: &Word, seen: &mut Vec<&'t str>) -> Result<(), Wrong> {
    if option != "then" && seen.contains(&option) {
        return Err(word.wrong(format!("--{option} stands twice")));
    }
    seen.push(option);
    Ok(())
}

/// Reads an option of a run, and the word behind it.
fn parse_option(
    call: &mut Call,
    option: &str,
    word: &Word,
    value: Option<Word>,
) -> Result<(), Wrong> {
    if !["level", "budget", "then"].contains(&option) {
        let reason = format!("`--{option}` is none of --level, --budget and --then");
        return Err(word.wrong(reason));
    }
    let value = value.ok_or_else(|| word.wrong(format!("nothing follows --{option}")))?;
    let wrong = |reason| value.wrong(reason);
    match option {
        "level" => call.level = level_of(value.text).map_err(wrong)?,
        "budget" => call.budget = plain_steps(value.text, "budget").map_err(wrong)?,
        _ => {
            let then = parse_then(OsStr::new(value.text)).map_err(wrong)?;
            if then.file == "-" {
                return Err(wrong("a test's image stands in a file".to_string()));
            }
            call.then.push(then);
        }
    }
    Ok(())
}

impl<'t> Word<'t> {
    /// What is wrong with it, at its place.
    fn wrong(&self, reason: String) -> Wrong {
        (self.column, reason)
    }

    /// The number that it is; `what` it is called in a message.
    fn number(&self, what: &str) -> Result<usize, Wrong> {
        let number = self.text.parse();
        number.map_err(|_| self.wrong(format!("expected {what}, found `{}`", self.text)))
    }

    /// The name of an option, and its value where `=` stands in the same word.
    fn split(&self, option: &'t str) -> (&'t str, Option<Word<'t>>) {
        let Some((name, text)) = option.split_once('=') else {
            return (option, None);
        };
        let before = self.text.chars().count() - text.chars().count();
        let column = self.column + before;
        (name, Some(Word { column, text }))
    }
}

/// The ends of a run that give no value.
const ENDS: [&str; 5] = ["UNDEF", "STEPS", "DEEP", "VECTORS", "PROMISES"];

impl Expected {
    /// What the words behind the colon expect, which end in a column.
    fn parse(words: &[Word], end: usize, asked: &Asked) -> Result<Expected, Wrong> {
        let is_run = *asked != Asked::Check;
        let (end_of, number, read) = match is_run {
            true => run_end(words, end)?,
            false => check_end(words, end)?,
        };
        let expected = Expected {
            end: end_of,
            number,
            steps: Steps::Any,
        };
        expected.rest(&words[read..], end, is_run)
    }

    /// Reads what stands behind an end: `at 24`, `after 24 steps`, `within 30 steps`.
    fn rest(mut self, words: &[Word], end: usize, is_run: bool) -> Result<Expected, Wrong> {
        let mut words = words.iter();
        while let Some(word) = words.next() {
            let refused = self.end.starts_with("refused") && self.number.is_none();
            let steps = is_run && self.steps == Steps::Any;
            let value = words.next();
            let number = || {
                let value =
                    value.ok_or_else(|| (end, format!("nothing follows `{}`", word.text)))?;
                plain_steps(value.text, "number").map_err(|reason| value.wrong(reason))
            };
            match word.text {
                "at" if refused => self.number = Some(number()? as usize),
                "after" | "within" if steps => {
                    self.steps = match word.text {
                        "after" => Steps::After(number()?),
                        _ => Steps::Within(number()?),
                    };
                    ask_steps(words.next(), end)?;
                }
                text => return Err(word.wrong(format!("`{text}` does not stand here"))),
            }
        }
        Ok(self)
    }
}

/// An end with its number, and how many words it takes.
type End = (String, Option<usize>, usize);

/// The end of a run.
fn run_end(words: &[Word], end: usize) -> Result<End, Wrong> {
    let texts: Vec<&str> = words.iter().map(|word| word.text).collect();
    match texts[..] {
        ["DONE"] => Err((end, "DONE has an integer or a vector behind it".to_string())),
        ["DONE", value, ..] => {
            let value = Argument::parse(value).map_err(|reason| words[1].wrong(reason))?;
            Ok((format!("DONE {value}"), None, 2))
        }
        [name, ..] if ENDS.contains(&name) => Ok((name.to_string(), None, 1)),
        _ => refused_end(words, end).unwrap_or_else(|| {
            let ends = ENDS.join(", ");
            let reason = format!("expected DONE with its value, {ends} or `refused by` a number");
            Err((words.first().map_or(end, |word| word.column), reason))
        }),
    }
}

/// The end of a check.
fn check_end(words: &[Word], end: usize) -> Result<End, Wrong> {
    match words {
        [first, ..] if first.text == ACCEPTED => {
            let versions = words.get(1).map(|word| word.number("a number of versions"));
            let versions = versions.transpose()?;
            let read = 1 + usize::from(versions.is_some());
            Ok((ACCEPTED.to_string(), versions, read))
        }
        _ => refused_end(words, end).unwrap_or_else(|| {
            let reason = format!("expected {ACCEPTED} or `refused by` a number");
            Err((words.first().map_or(end, |word| word.column), reason))
        }),
    }
}

/// The end of what is refused by a question; none where the words say something else.
fn refused_end(words: &[Word], end: usize) -> Option<Result<End, Wrong>> {
    let (head, question) = words.split_at_checked(2)?;
    let refused = head[0].text == "refused" && head[1].text == "by";
    let question = match question.first() {
        None => Err((end, "expected a question's number behind `by`".to_string())),
        Some(word) => word.number("a question's number"),
    };
    refused.then(|| Ok((format!("refused by {}", question?), None, 3)))
}

/// Asks for the word behind a number of steps.
fn ask_steps(word: Option<&Word>, end: usize) -> Result<(), Wrong> {
    match word {
        Some(word) if ["step", "steps"].contains(&word.text) => Ok(()),
        Some(word) => Err(word.wrong(format!("expected `steps`, found `{}`", word.text))),
        None => Err((end, "expected `steps` behind the number".to_string())),
    }
}
