//! `fir bounds`: the most steps that a run of each version can take.

mod chain;
mod made;

use crate::command::Bounds;
use crate::failure::{Failure, Status};
use crate::json::Json;
use crate::number::many;
use crate::place::{beginning, version_name, Position};
use crate::refusal::{self, Refused};
use crate::running::answered;
use crate::several;
use crate::source::Source;
use crate::streams::Streams;
use chain::Dependence;
use library::{Bound, Entry, Row};
use made::Made;
use reference::program::{Program, Version};
use reference::Form;

/// Lists the versions of all images that are asked for; the exit status.
pub fn all(asked: &Bounds, streams: &mut Streams) -> Result<Status, Failure> {
    let object = asked.json.then_some("result");
    several::each(&asked.files, object, streams, |source, streams| {
        one(asked, source, streams)
    })
}

/// Lists the versions of an image, unless it is refused; the exit status.
fn one(asked: &Bounds, source: &Source, streams: &mut Streams) -> Result<Status, Failure> {
    let listing = match Listing::of(source, asked) {
        Ok(listing) => listing,
        Err(refused) => {
            let line = match (asked.json, asked.files.len()) {
                (true, _) => refused_json(source, &refused).to_string(),
                (false, 1) => refused.line(source),
                (false, _) => refused.line_of_several(source),
            };
            return answered(Status::No, streams.line(&line));
        }
    };
    let mut status = Status::Yes;
    for row in &listing.rows {
        let told = match asked.json {
            true => streams.line(&listing.json(row).to_string()),
            false => listing.tell(row, streams),
        };
        answered(Status::Yes, told)?;
        if listing.is_over(row) {
            status = Status::No;
        }
    }
    Ok(status)
}

/// A refusal as an object.
fn refused_json(source: &Source, refused: &Refused) -> Json {
    let mut fields = vec![
        ("file", Json::from(source.name.as_str())),
        ("result", "refused".into()),
    ];
    fields.extend(refused.json());
    Json::Object(fields)
}

/// The bound that the proved library gives for an entry of an image; none where there is
/// no such version, or the image is refused.
pub fn of_entry(image: &[u8], entry: Entry) -> Option<Bound> {
    let rows = library::bounds(image).ok()?;
    let row = rows.iter().find(|row| is_of(row, entry))?;
    Some(row.bound)
}

/// Is a row that of an entry?
fn is_of(row: &Row, entry: Entry) -> bool {
    (row.function.into(), row.version.into()) == (entry.function, entry.version)
}

/// A bound in words: `26 steps`, `large` or `none`.
pub fn words(bound: Bound) -> String {
    match bound {
        Bound::Steps(steps) => many(steps as usize, "step"),
        Bound::Large => "large".to_string(),
        Bound::None => "none".to_string(),
    }
}

/// A bound in an object: a number, or a word.
pub fn json(bound: Bound) -> Json {
    match bound {
        Bound::Steps(steps) => steps.into(),
        Bound::Large | Bound::None => words(bound).into(),
    }
}

/// An accepted image with the rows of its versions.
struct Listing<'a> {
    source: &'a Source,
    asked: &'a Bounds,
    program: Program,
    rows: Vec<Row>,
    dependence: Dependence,
}

impl<'a> Listing<'a> {
    /// That of an image that has the entries which are asked for.
    fn of(source: &'a Source, asked: &'a Bounds) -> Result<Listing<'a>, Refused> {
        let rows = library::bounds(&source.image);
        let rows = rows.map_err(|no| refusal::of_image(Form::Wide, source, no))?;
        let missing = |entry: &&Entry| !rows.iter().any(|row| is_of(row, **entry));
        if let Some(&entry) = asked.entries.iter().find(missing) {
            return Err(refusal::of_entry(source, entry));
        }
        let program = Program::ordered(&source.image).unwrap_or(Program { versions: vec![] });
        Ok(Listing {
            source,
            asked,
            dependence: Dependence::of(&program),
            program,
            rows,
        })
    }

    /// The place of a row's version in the program, and the version.
    fn version(&self, row: &Row) -> Option<(usize, &Version)> {
        let mut versions = self.program.versions.iter().enumerate();
        let numbers = (row.function, row.version);
        versions.find(|(_, version)| (version.head.function, version.head.version) == numbers)
    }

    /// The bound of a version by its place in the program.
    fn bound(&self, index: usize) -> Bound {
        let head = &self.program.versions[index].head;
        let mut rows = self.rows.iter();
        let row = rows.find(|row| (row.function, row.version) == (head.function, head.version));
        row.map_or(Bound::None, |row| row.bound)
    }

    /// May a run of the row's version take more steps than are asked for?
    fn is_over(&self, row: &Row) -> bool {
        let entries = &self.asked.entries;
        let entered = entries.is_empty() || entries.iter().any(|&entry| is_of(row, entry));
        let most = self.asked.under;
        entered && most.is_some_and(|most| !matches!(row.bound, Bound::Steps(n) if n <= most))
    }

    /// Where the row's version stands in the text, if there is one.
    fn position(&self, row: &Row) -> Option<Position> {
        let (_, version) = self.version(row)?;
        self.source.position(version.offset)
    }

    /// The names of the chain that comes back, where the row has no bound.
    fn chain(&self, row: &Row) -> Vec<String> {
        let version = self.version(row).filter(|_| row.bound == Bound::None);
        let chain = version.map(|(index, _)| self.dependence.returning(index));
        let name = |index: usize| version_name(&self.program.versions[index]);
        chain.into_iter().flatten().map(name).collect()
    }

    /// What the row's bound is made of, if that is asked for.
    fn made(&self, row: &Row) -> Option<Made<'_>> {
        let (_, version) = self.version(row).filter(|_| self.asked.why)?;
        let bound = |index| self.bound(index);
        Some(Made::of(self.source, &self.program, version, &bound))
    }

    /// Prints the line of a row, and what its bound is made of.
    fn tell(&self, row: &Row, streams: &mut Streams) -> Result<(), Failure> {
        let otherwise = match self.asked.files.len() {
            1 => String::new(),
            _ => format!("{}: ", self.source.name),
        };
        let mut line = beginning(&self.source.name, self.position(row), &otherwise);
        line += &format!("{}.{} {}", row.function, row.version, words(row.bound));
        if let Some(most) = self.asked.under.filter(|_| self.is_over(row)) {
            line += &format!(", over {most}");
        }
        let chain = self.chain(row);
        if !chain.is_empty() {
            line += &format!(": {}", chain.join(" calls "));
        }
        streams.line(&line)?;
        for line in self.made(row).iter().flat_map(Made::lines) {
            streams.line(&line)?;
        }
        Ok(())
    }

    /// A row as an object.
    fn json(&self, row: &Row) -> Json {
        let name = format!("{}.{}", row.function, row.version);
        let mut fields = vec![
            ("file", Json::from(self.source.name.as_str())),
            ("version", name.into()),
            ("bound", json(row.bound)),
        ];
        if let Some((_, version)) = self.version(row) {
            fields.push(("offset", version.offset.into()));
        }
        fields.extend(Json::position(self.position(row)));
        let chain = self.chain(row);
        if !chain.is_empty() {
            fields.push(("chain", chain.into_iter().collect()));
        }
        if self.asked.under.is_some() {
            fields.push(("over", self.is_over(row).into()));
        }
        fields.extend(self.made(row).map(|made| ("why", made.json())));
        Json::Object(fields)
    }
}
