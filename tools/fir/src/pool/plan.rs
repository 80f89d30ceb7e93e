//! The plan of a pool: what eight numbers reserve, what is started and changed under them,
//! and how the runs go on in turn.

use crate::command::{parse_call, plain_steps, Call, RUN_BUDGET};
use crate::failure::{Failure, Wrong};
use crate::help::LEVEL;
use crate::options::{Opt, Words};
use crate::place::Position;
use std::ffi::{OsStr, OsString};
use std::path::Path;

/// The steps of a turn, and the rounds at most, where the plan names none.
const SLICE: u32 = 100;
const ROUNDS: u32 = 10_000;

/// The options of a run in a plan.
const OPTIONS: [Opt; 1] = [LEVEL];

/// What each line of a plan begins with.
const WORDS: &str = "reserve, slice, rounds, run or change";

/// A plan.
#[derive(Clone, PartialEq, Eq, Debug)]
pub struct Plan {
    /// What a number reserves, in the order of the lines.
    pub reserves: Vec<(usize, u8)>,
    /// The steps of each turn.
    pub slice: u32,
    /// The rounds at most.
    pub rounds: u32,
    /// What is done, in the order of the rounds.
    pub deeds: Vec<Deed>,
}

/// Something done under a number.
#[derive(Clone, PartialEq, Eq, Debug)]
pub struct Deed {
    /// After how many rounds.
    pub after: u32,
    /// The number.
    pub number: usize,
    /// What is done.
    pub what: What,
}

/// What is done under a number.
#[derive(Clone, PartialEq, Eq, Debug)]
pub enum What {
    /// A run is started.
    Run(Call),
    /// The run goes on under another image.
    Change(OsString),
}

impl Deed {
    /// The file of the image.
    pub fn file(&self) -> &OsStr {
        match &self.what {
            What::Run(call) => &call.file,
            What::Change(file) => file,
        }
    }
}

impl Plan {
    /// The plan of a text; files that it names stand in the folder of `file`, its own.
    pub fn parse(text: &str, file: &OsStr, name: &str) -> Result<Plan, Failure> {
        let mut plan = Plan {
            reserves: Vec::new(),
            slice: SLICE,
            rounds: ROUNDS,
            deeds: Vec::new(),
        };
        let folder = Path::new(file).parent();
        for (index, line) in text.lines().enumerate() {
            let line = line.split('#').next().unwrap_or_default();
            let words: Vec<&str> = line.split_whitespace().collect();
            let Some((&first, rest)) = words.split_first() else {
                continue;
            };
            let read = plan.read(first, rest, folder);
            read.map_err(|reason| {
                Failure::Text(Wrong {
                    name: name.to_string(),
                    position: Position {
                        line: index + 1,
                        column: text::first_column(line),
                    },
                    reason,
                })
            })?;
        }
        plan.deeds.sort_by_key(|deed| deed.after);
        Ok(plan)
    }

    /// Reads a line: its first word, and those behind it.
    fn read(&mut self, first: &str, rest: &[&str], folder: Option<&Path>) -> Result<(), String> {
        match (first, rest) {
            ("reserve", [number, count]) => {
                let wrong = |_| format!("`{count}` is no number of vectors of 0 to 255");
                let count = count.parse().map_err(wrong)?;
                self.reserves.push((parse_number(number)?, count));
            }
            ("slice", [steps]) => self.slice = plain_steps(steps, "slice")?,
            ("rounds", [rounds]) => self.rounds = plain_steps(rounds, "number of rounds")?,
            ("run", rest) => self.deeds.push(parse_run(rest, folder)?),
            ("change", rest) => self.deeds.push(parse_change(rest, folder)?),
            ("reserve", _) => return Err("a reserve is a number and a count: `reserve 0 8`".into()),
            ("slice" | "rounds", _) => return Err(format!("{first} takes one number")),
            _ => return Err(format!("`{first}` is not {WORDS}")),
        }
        Ok(())
    }
}

/// A number of a run; whether there is such a one is asked later.
fn parse_number(text: &str) -> Result<usize, String> {
    let wrong = |_| format!("`{text}` is no number of a run");
    text.parse().map_err(wrong)
}

/// The words before `after`, and the round behind it; 0 where it does not stand.
fn split_after<'w>(words: &'w [&'w str]) -> Result<(&'w [&'w str], u32), String> {
    match words {
        [before @ .., "after", round] => Ok((before, plain_steps(round, "round")?)),
        _ => Ok((words, 0)),
    }
}

/// A file of a plan: it stands in the plan's folder.
fn file_of(name: &OsStr, folder: Option<&Path>) -> Result<OsString, String> {
    if name == "-" {
        return Err("an image of a plan stands in a file, not in standard input".to_string());
    }
    let folder = folder.unwrap_or(Path::new(""));
    Ok(folder.join(name).into_os_string())
}

/// `run NUMBER FILE F.V [ARGUMENT..] [--level LEVEL] [after ROUND]`
fn parse_run(words: &[&str], folder: Option<&Path>) -> Result<Deed, String> {
    let (words, after) = split_after(words)?;
    let (number, rest) = words.split_first().ok_or("no number is named")?;
    let rest: Vec<OsString> = rest.iter().map(OsString::from).collect();
    let mut call = parse_call(Words::parse(&OPTIONS, &rest)?, RUN_BUDGET)?;
    call.file = file_of(&call.file, folder)?;
    Ok(Deed {
        after,
        number: parse_number(number)?,
        what: What::Run(call),
    })
}

/// `change NUMBER FILE [after ROUND]`
fn parse_change(words: &[&str], folder: Option<&Path>) -> Result<Deed, String> {
    let (words, after) = split_after(words)?;
    let [number, file] = words else {
        return Err("a change is a number and a file: `change 2 new.fir after 3`".to_string());
    };
    Ok(Deed {
        after,
        number: parse_number(number)?,
        what: What::Change(file_of(OsStr::new(file), folder)?),
    })
}
