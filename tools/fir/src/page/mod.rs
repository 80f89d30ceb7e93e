//! `fir trace --html`: a page that shows a run step by step.
//!
//! The page holds the state before the first step and, of each step, where it stood, what
//! it did and what differs after it. Its script builds what is shown from these.

mod difference;

use crate::command::Call;
use crate::json::Json;
use crate::source::Source;
use crate::trace::{Script, Spot, Step};
use difference::{difference, Difference, Seen};
use library::{Entry, Run, State};
use reference::program::Program;
use reference::Level;
use std::collections::BTreeMap;
use text::level_text;

/// The page, with places for the titles, the style, the script and the run.
const PAGE: &str = include_str!("page.html");
/// How many places the title has: that of the window, and the heading.
const TITLES: usize = 2;
const STYLE: &str = include_str!("page.css");
const SCRIPT: &str = include_str!("page.js");

/// An image that the run goes on under, as the page shows it.
struct Shown {
    source: Source,
    program: Program,
}

impl Shown {
    /// That of an image.
    fn new(source: &Source) -> Shown {
        let program = Program::ordered(&source.image);
        Shown {
            source: source.clone().readable(),
            program: program.unwrap_or(Program { versions: vec![] }),
        }
    }

    /// Its program, and what its text calls registers.
    fn script(&self) -> Script<'_> {
        Script {
            program: &self.program,
            names: &self.source.names,
        }
    }

    /// Its name, the lines of its text, and what it calls registers: by version and number.
    fn json(&self) -> Json {
        let text = self.source.text.as_deref().unwrap_or_default();
        let names = self.source.names.all();
        let names = names.map(|((function, version), register, name)| {
            let version = format!("{function}.{version}");
            Json::List(vec![
                version.into(),
                format!("r{register}").into(),
                name.into(),
            ])
        });
        Json::Object(vec![
            ("name", self.source.name.as_str().into()),
            ("lines", text.lines().collect()),
            ("names", names.collect()),
        ])
    }
}

/// Where a step stood: the image, the line, the version, the block and the text.
type Place = (usize, usize, String, usize, String);

/// What a page shows of a run.
pub struct Recorder {
    /// The file, the version, the arguments and the level, and the files that follow.
    title: String,
    shown: Vec<Shown>,
    start: Difference,
    /// The places that steps stood at, each once, with its number.
    places: BTreeMap<Place, usize>,
    steps: Vec<Json>,
    /// Where the run stands now.
    standing: Option<usize>,
}

impl Recorder {
    /// That of a run before its first step.
    pub fn new(source: &Source, call: &Call, run: &Run) -> Recorder {
        let shown = Shown::new(source);
        let (state, topmost) = (run.state(), run.topmost());
        let blank = State::blank();
        let none = Seen {
            state: &blank,
            topmost: &[],
        };
        let first = Seen {
            state,
            topmost: &topmost,
        };
        let mut recorder = Recorder {
            title: title(source, call),
            start: difference(shown.script(), none, first),
            shown: vec![shown],
            places: BTreeMap::new(),
            steps: Vec::new(),
            standing: None,
        };
        recorder.stand(state);
        recorder
    }

    /// Notes that the run goes on under another image.
    pub fn change(&mut self, source: &Source, state: &State) {
        self.title += &format!(", then {}", source.name);
        self.shown.push(Shown::new(source));
        self.stand(state);
    }

    /// Notes where the run stands.
    fn stand(&mut self, state: &State) {
        let number = self.shown.len() - 1;
        let shown = &self.shown[number];
        let source = &shown.source;
        let place = Spot::of(shown.script(), state).map(|spot| {
            let line = source.line(spot.offset()).unwrap_or(0);
            let (version, block) = (spot.version_name(), spot.activation.block);
            (number, line, version, block, spot.text())
        });
        let next = self.places.len();
        self.standing = place.map(|place| *self.places.entry(place).or_insert(next));
    }

    /// Notes a step: where it stood, how deep, what it did, and what differs after it.
    pub fn record(&mut self, step: &Step, after: &State) {
        let script = self.shown[self.shown.len() - 1].script();
        let did = step.spot().map(|spot| step.did(after, &spot));
        let was = Seen {
            state: &step.before,
            topmost: &step.topmost,
        };
        let is = Seen {
            state: after,
            topmost: &step.left,
        };
        let differs = difference(script, was, is);
        self.steps.push(Json::List(vec![
            self.standing.into(),
            step.before.depth.into(),
            did.into(),
            pairs(&differs),
        ]));
        self.stand(after);
    }

    /// The page of the run, which ended so.
    pub fn page(self, result: &str) -> String {
        let mut places: Vec<(&Place, &usize)> = self.places.iter().collect();
        places.sort_by_key(|(_, number)| **number);
        let places = places.into_iter().map(|(place, _)| {
            let (image, line, version, block, text) = place;
            Json::List(vec![
                (*image).into(),
                (*line).into(),
                version.as_str().into(),
                (*block).into(),
                text.as_str().into(),
            ])
        });
        let run = Json::Object(vec![
            ("images", self.shown.iter().map(Shown::json).collect()),
            ("start", pairs(&self.start)),
            ("places", places.collect()),
            ("steps", Json::List(self.steps)),
            ("standing", self.standing.into()),
            ("result", result.into()),
        ]);
        let (style, script) = (("/*STYLE*/", STYLE), ("/*SCRIPT*/", SCRIPT));
        let page = PAGE.replacen(style.0, style.1, 1);
        let page = page.replacen(script.0, script.1, 1);
        let page = page.replacen("/*RUN*/", &run.to_string(), 1);
        page.replacen("/*TITLE*/", &escaped(&self.title), TITLES)
    }
}

/// The title of a run: `pump.fir: 0.0 210 [200, 195] at level staff`.
fn title(source: &Source, call: &Call) -> String {
    let Entry { function, version } = call.entry;
    let mut title = format!("{}: {function}.{version}", source.name);
    for argument in &call.arguments {
        title += &format!(" {argument}");
    }
    let level = level_text(Level::stated(call.level));
    title + &format!(" at level {level}")
}

/// A text as it stands in a page.
fn escaped(text: &str) -> String {
    let text = text.replace('&', "&amp;");
    text.replace('<', "&lt;").replace('>', "&gt;")
}

/// What differs, as pairs of a place and what it shows, `null` where it is gone.
fn pairs(differs: &Difference) -> Json {
    let pairs = differs
        .iter()
        .map(|(place, shows)| Json::List(vec![place.as_str().into(), shows.as_deref().into()]));
    pairs.collect()
}
