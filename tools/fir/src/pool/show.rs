//! What is printed of a pool, as lines or as JSON.

use super::plan::Deed;
use crate::failure::Failure;
use crate::json::Json;
use crate::number::many;
use crate::refusal::Refused;
use crate::source::{self, Source};
use crate::streams::Streams;
use crate::telling::{name_of, value_of, words_of, Format};
use library::{Answer, End, Number, Pool, FIR_RUNS};

/// How a pool is shown.
#[derive(Clone, Copy, PartialEq, Eq, Debug)]
pub struct Telling {
    /// How things are printed.
    pub format: Format,
    /// Is the most that each had printed?
    pub stats: bool,
}

/// A run after a round.
pub struct Row<'r> {
    /// Its number.
    pub number: Number,
    /// What it reserves.
    pub reserve: usize,
    /// What it has.
    pub has: usize,
    /// What it may have.
    pub may_have: usize,
    /// What it might have in its last turn.
    pub might_have: usize,
    /// What it has come to.
    pub answer: Answer,
    /// The steps that it took.
    pub steps: u32,
    /// The items of a vector that it is DONE with.
    pub buffer: &'r [i64],
}

/// Something done under a number, with the image that it is of.
#[derive(Clone, Copy)]
pub struct Done<'s> {
    /// Behind which round.
    pub round: u32,
    /// The number.
    pub number: Number,
    /// The image.
    pub source: &'s Source,
}

impl Done<'_> {
    /// The round, the number and the image, and a field more, to stand in an object.
    fn json(&self, name: &'static str, value: impl Into<Json>) -> Vec<(&'static str, Json)> {
        vec![
            ("round", self.round.into()),
            ("number", self.number.get().into()),
            ("image", self.source.name.as_str().into()),
            (name, value.into()),
        ]
    }
}

/// The line above a table.
const HEAD: &str = "  number  reserves  has  may have";

impl Row<'_> {
    /// The row of a table.
    fn line(&self) -> String {
        let Row {
            number,
            reserve,
            has,
            may_have,
            might_have,
            answer,
            steps,
            buffer,
        } = self;
        let came = match answer {
            Answer::Steps => "goes on".to_string(),
            answer => words_of(*answer, buffer),
        };
        let steps = many(*steps as usize, "step");
        let full = match answer {
            Answer::Ended(End::Vectors) => format!(": it might have {might_have}"),
            _ => String::new(),
        };
        format!("  {number:>6}  {reserve:>8}  {has:>3}  {may_have:>8}  {came} after {steps}{full}")
    }

    /// The row as an object.
    fn json(&self) -> Json {
        let mut fields = vec![
            ("number", Json::from(self.number.get())),
            ("reserves", self.reserve.into()),
            ("has", self.has.into()),
            ("may_have", self.may_have.into()),
            ("result", name_of(self.answer).into()),
            ("steps", self.steps.into()),
        ];
        let value = value_of(self.answer, self.buffer);
        fields.extend(value.map(|value| ("value", value)));
        if self.answer == Answer::Ended(End::Vectors) {
            fields.push(("might_have", self.might_have.into()));
        }
        Json::Object(fields)
    }
}

impl Telling {
    /// Prints a line, or an object.
    fn tell(
        self,
        line: impl FnOnce() -> String,
        fields: impl FnOnce() -> Vec<(&'static str, Json)>,
        streams: &mut Streams,
    ) -> Result<(), Failure> {
        match self.format {
            Format::Lines => streams.line(&line()),
            Format::Json => streams.line(&Json::Object(fields()).to_string()),
        }
    }

    /// Prints that a pool is not made.
    pub fn not_made(
        self,
        plan: &str,
        refused: &Refused,
        streams: &mut Streams,
    ) -> Result<(), Failure> {
        let line = || format!("{plan}: {}", refused.plain());
        let fields = || {
            let mut fields = vec![("result", Json::from("refused"))];
            fields.extend(refused.json());
            fields
        };
        self.tell(line, fields, streams)
    }

    /// Prints that a run is started; what it may have, where its arguments need more.
    pub fn started(
        self,
        done: Done,
        full: Option<usize>,
        streams: &mut Streams,
    ) -> Result<(), Failure> {
        let line = || {
            let begun = format!("{}: starts {}", done.number, done.source.name);
            let Some(may_have) = full else {
                return begun;
            };
            let may_have = many(may_have, "vector");
            format!("{begun}, and stops with VECTORS: its arguments need more than {may_have}")
        };
        let fields = || {
            let mut fields = done.json("started", true);
            fields.extend(full.map(|_| ("result", "VECTORS".into())));
            fields
        };
        self.tell(line, fields, streams)
    }

    /// Prints that a run goes on under another image.
    pub fn changed(self, done: Done, streams: &mut Streams) -> Result<(), Failure> {
        let line = || format!("{}: goes on under {}", done.number, done.source.name);
        self.tell(line, || done.json("taken", true), streams)
    }

    /// Prints why a start or a change is refused.
    pub fn refused(
        self,
        done: Done,
        refused: &Refused,
        streams: &mut Streams,
    ) -> Result<(), Failure> {
        let line = || format!("{}: {}", done.number, refused.line_of_several(done.source));
        let fields = || {
            let mut fields = done.json("result", "refused");
            fields.extend(refused.json());
            fields
        };
        self.tell(line, fields, streams)
    }

    /// Prints that a number has no run that could go on under another image.
    pub fn no_run(self, done: Done, streams: &mut Streams) -> Result<(), Failure> {
        let words = "the number has no run";
        let name = &done.source.name;
        let line = || format!("{}: {words} that could go on under {name}", done.number);
        self.tell(line, || done.json("error", words), streams)
    }

    /// Prints a round: a row for each run that goes on, or has ended in it.
    pub fn round(self, round: u32, rows: &[Row], streams: &mut Streams) -> Result<(), Failure> {
        let line = || {
            let rows = rows.iter().map(Row::line);
            let lines = [format!("round {round}"), HEAD.to_string()];
            let lines: Vec<String> = lines.into_iter().chain(rows).collect();
            lines.join("\n")
        };
        let fields = || {
            let runs = rows.iter().map(Row::json);
            vec![("round", round.into()), ("runs", runs.collect())]
        };
        self.tell(line, fields, streams)
    }

    /// Prints that something of the plan was not come to.
    pub fn not_reached(self, deed: &Deed, streams: &mut Streams) -> Result<(), Failure> {
        let (number, after, file) = (deed.number, deed.after, source::name(deed.file()));
        let line = || format!("{number}: not reached: {file} after round {after}");
        let fields = || {
            vec![
                ("number", number.into()),
                ("image", file.as_str().into()),
                ("not_reached", after.into()),
            ]
        };
        self.tell(line, fields, streams)
    }

    /// Prints the most vectors that each number had, if that is asked for.
    pub fn most(
        self,
        pool: &Pool,
        most: &[usize; FIR_RUNS],
        streams: &mut Streams,
    ) -> Result<(), Failure> {
        if !self.stats {
            return Ok(());
        }
        let line = || {
            let row = |number: &Number| {
                let (reserve, most) = (pool.reserve(*number), most[number.get()]);
                format!("  {number:>6}  {reserve:>8}  {most:>8}")
            };
            let rows: Vec<String> = Number::ALL.iter().map(row).collect();
            format!("  number  reserves  had most\n{}", rows.join("\n"))
        };
        let fields = || vec![("most", most.iter().copied().collect())];
        self.tell(line, fields, streams)
    }
}
