//! The scripts of `docs/LANGUAGE.md` do what the lines above them say, each refusal
//! has its section, and what the document names stands in the definitions.

use cases::exact;
use reference::bounds::{Steps, BUFFER, MAX_IMAGE, REGISTERS};
use reference::pool::{Start, RUNS};
use reference::questions::QUESTIONS;
use reference::watch::TOO_SHORT;
use reference::watched::Watched;
use reference::{
    bounds_of, change, join, mend, move_from, report, verdict, Answer, Bound, End, Form, Integer,
    Mended, Pool, Program, Refusal, State, Trail, Type, Unjoined, Verdict,
};
use std::fs;
use std::path::{Path, PathBuf};

/// The document.
const DOCUMENT: &str = include_str!("../../../docs/LANGUAGE.md");

/// The questions that are not put to an image, in the order in which they are put.
const FURTHER: [u8; 11] = [11, 19, 12, 13, 15, 16, 17, 20, 21, 22, 23];

/// The most steps of a run.
const BUDGET: Steps = 1000;

/// A script of the document.
struct Example {
    /// The refusal that its section is about; 0 where it is about none.
    section: u8,
    /// The line above it, without the colon at its end.
    caption: &'static str,
    /// Its text.
    script: String,
}

/// The refusal that a heading is about.
fn refusal_of(line: &str) -> Option<u8> {
    line.strip_prefix("### ")?.split_once(": ")?.0.parse().ok()
}

/// The scripts of the document, in its order.
fn examples() -> Vec<Example> {
    let (mut examples, mut section, mut above) = (Vec::new(), 0, "");
    let mut lines = DOCUMENT.lines();
    while let Some(line) = lines.next() {
        if line == "```fir" {
            let script = lines.by_ref().take_while(|&line| line != "```");
            let script = script.map(|line| format!("{line}\n")).collect();
            let caption = above.strip_suffix(':').unwrap_or_else(|| panic!("{above}"));
            examples.push(Example {
                section,
                caption,
                script,
            });
        } else if line.starts_with('#') {
            section = refusal_of(line).unwrap_or(0);
        } else if !line.is_empty() {
            above = line;
        }
    }
    examples
}

/// What is tried of a script.
enum Trial<'t> {
    /// The questions to its image.
    Checked,
    /// The first line of what `check` prints.
    Counted,
    /// The versions with their bounds.
    Bounded,
    /// A run by these words, with a buffer of so many places.
    Run(&'t str, usize),
    /// A change of the run before, after so many steps.
    Changed(Steps),
    /// A step back after so many steps of a run by these words, and then on to its end.
    Back(Steps, &'t str),
    /// A watch of the topmost call after so many steps of a run by these words, into a list of
    /// so many records.
    Watched(Steps, &'t str, usize),
    /// A run by these words under a number of a pool in which the first numbers reserve so
    /// many, and the others none.
    Pooled(Vec<u8>, usize, &'t str),
    /// A move to 32 bits, into a buffer of so many places.
    Moved(usize),
    /// So many joins with itself, into a buffer of so many places.
    Joined(usize, usize),
}

/// What a caption tries, and what it says comes of it.
fn trial(caption: &str) -> Option<(Trial<'_>, &str)> {
    if let Some(said) = caption.strip_prefix("Checked, ") {
        return Some((Trial::Checked, said));
    }
    if let Some(said) = caption.strip_prefix("Counted, ") {
        return Some((Trial::Counted, said));
    }
    if let Some(said) = caption.strip_prefix("Bounded, ") {
        return Some((Trial::Bounded, said));
    }
    if let Some(rest) = caption.strip_prefix("Run by `") {
        let (words, rest) = rest.split_once('`')?;
        let (places, said) = places(rest, " with a buffer of ", BUFFER)?;
        return Some((Trial::Run(words, places), said));
    }
    if let Some(rest) = caption.strip_prefix("Changed to after ") {
        let (steps, said) = rest.split_once(", ")?;
        let steps = steps.split(' ').next()?.parse().ok()?;
        return Some((Trial::Changed(steps), said));
    }
    if let Some(rest) = caption.strip_prefix("Back after ") {
        let (steps, rest) = rest.split_once(" of `")?;
        let (words, said) = rest.split_once("`, ")?;
        let steps = steps.split(' ').next()?.parse().ok()?;
        return Some((Trial::Back(steps, words), said));
    }
    if let Some(rest) = caption.strip_prefix("Watched after ") {
        let (steps, rest) = rest.split_once(" of `")?;
        let (words, rest) = rest.split_once('`')?;
        let (records, said) = places(rest, " in a list of ", REGISTERS)?;
        let steps = steps.split(' ').next()?.parse().ok()?;
        return Some((Trial::Watched(steps, words, records), said));
    }
    if let Some(rest) = caption.strip_prefix("In a pool of ") {
        return pooled(rest);
    }
    if let Some(rest) = caption.strip_prefix("Moved to 32 bits") {
        let (places, said) = places(rest, " into a buffer of ", MAX_IMAGE)?;
        return Some((Trial::Moved(places), said));
    }
    let rest = caption.strip_prefix("Joined with itself")?;
    let (times, rest) = times(rest)?;
    let (places, said) = places(rest, " into a buffer of ", MAX_IMAGE)?;
    Some((Trial::Joined(times, places), said))
}

/// What a caption tries in a pool, behind its reserves: the number, the words of the run, and
/// what comes of it.
fn pooled(rest: &str) -> Option<(Trial<'_>, &str)> {
    let (reserves, rest) = rest.split_once(" under ")?;
    let (number, rest) = rest.split_once(" by `")?;
    let (words, said) = rest.split_once("`, ")?;
    let reserves: Result<Vec<u8>, _> = reserves.split(", ").map(str::parse).collect();
    let (reserves, number) = (reserves.ok()?, number.parse().ok()?);
    Some((Trial::Pooled(reserves, number, words), said))
}

/// How often a caption says that an image is joined, once where it does not say it; and
/// what stands behind, without what that makes.
fn times(rest: &str) -> Option<(usize, &str)> {
    let Some((number, behind)) = rest.split_once(" times") else {
        return Some((1, rest));
    };
    let made = behind.strip_prefix(", which makes ");
    let behind = made.map_or(behind, |made| made.find(',').map_or("", |end| &made[end..]));
    Some((number.trim_start().parse().ok()?, behind))
}

/// How long an image is that was joined so often behind itself, or why it is not.
fn joined(image: &[u8], times: usize, places: usize) -> Result<usize, Refusal> {
    let mut joined = image.to_vec();
    for _ in 0..times {
        joined = join(&joined, image, places).map_err(|no| match no {
            Unjoined::First(no) | Unjoined::Second(no) | Unjoined::Together(no) => no,
        })?;
    }
    Ok(joined.len())
}

/// The places of the buffer that a caption names behind these words, or so many where
/// it names none; and what stands behind.
fn places<'t>(rest: &'t str, words: &str, otherwise: usize) -> Option<(usize, &'t str)> {
    match rest.strip_prefix(words) {
        None => Some((otherwise, rest.strip_prefix(", ")?)),
        Some(named) => {
            let (number, rest) = named.split_once(' ')?;
            let number = number.parse().ok()?;
            let word = if number == 1 { "place, " } else { "places, " };
            Some((number, rest.strip_prefix(word)?))
        }
    }
}

/// A run that a caption asks for.
struct Asked {
    level: usize,
    entry: (usize, usize),
    words: Vec<Integer>,
    places: usize,
}

/// The run of words such as `0.0 7 [1,2] --level staff`; the factory's where they name
/// no level.
fn asked(text: &str, places: usize) -> Asked {
    let (text, level) = text.split_once(" --level ").unwrap_or((text, "factory"));
    let levels = ["portal", "staff", "factory"];
    let level = levels.iter().position(|&name| name == level);
    let mut parts = text.split(' ');
    let entry = parts.next().and_then(|entry| entry.split_once('.'));
    let (function, version) = entry.expect("a version such as 0.0");
    let number = |text: &str| text.parse().expect("a number");
    Asked {
        level: level.expect("a level"),
        entry: (number(function), number(version)),
        words: parts.flat_map(argument).collect(),
        places,
    }
}

/// The argument words of an integer or of a vector such as `[1,2]`.
fn argument(text: &str) -> Vec<Integer> {
    let integer = |text: &str| -> Integer { text.parse().expect("an integer") };
    let Some(items) = text.strip_prefix('[').and_then(|t| t.strip_suffix(']')) else {
        return vec![-1, integer(text)];
    };
    let items: Vec<Integer> = items.split(',').map(integer).collect();
    let length = Integer::try_from(items.len()).expect("a length");
    [vec![length], items].concat()
}

/// A run of the image of a script.
struct Run {
    image: Vec<u8>,
    asked: Asked,
}

impl Run {
    /// The state before its first step.
    fn begin(&self) -> Result<(Program, State), Refusal> {
        let program = Program::accept(&self.image)?;
        let buffer = vec![0; self.asked.places];
        let (level, (function, version)) = (self.asked.level, self.asked.entry);
        let words = &self.asked.words;
        let state = State::begin(&program, level, function, version, words, &buffer)?;
        Ok((program, state))
    }

    /// What comes of it.
    fn outcome(&self) -> Result<String, Refusal> {
        let (program, state) = self.begin()?;
        ended(state, &program, 0)
    }

    /// What comes of it under another image, once so many steps are taken.
    fn outcome_under(&self, new: &[u8], steps: Steps) -> Result<String, Refusal> {
        let (program, state) = self.begin()?;
        let (state, answer, _) = state.budget(&program, steps, &mut [0; BUFFER]);
        assert_eq!(answer, Answer::Steps, "the run goes on");
        change(&self.image, new, &state)?;
        ended(state, &Program::accept(new)?, steps)
    }

    /// How many registers a list of so many records shows once so many steps are taken.
    fn outcome_watched(&self, steps: Steps, records: usize) -> Result<String, Refusal> {
        let (program, state) = self.begin()?;
        let (state, ..) = state.budget(&program, steps, &mut [0; BUFFER]);
        let shown = state.watch(&program).len();
        if records < shown {
            return Err(Refusal {
                number: TOO_SHORT,
                offset: 0,
            });
        }
        Ok(format!("{shown} registers"))
    }

    /// What comes of it where a step back is taken once so many steps are.
    fn outcome_behind(&self, steps: Steps) -> Result<String, Refusal> {
        let (program, state) = self.begin()?;
        let run = Watched::new(&program, state, self.asked.level, "a step back");
        let mut trail = Trail::start(run);
        let (_, taken) = trail.budget(steps, &mut [0; BUFFER]);
        assert_eq!(taken, steps, "the run takes as many");
        trail.back()?;
        ended(trail.run().state().clone(), &program, steps - 1)
    }

    /// What comes of it under a number of a pool with these reserves.
    fn outcome_in_pool(&self, reserves: &[u8], number: usize) -> Result<String, Refusal> {
        let mut all = [0; RUNS];
        all[..reserves.len()].copy_from_slice(reserves);
        let mut pool = Pool::make(all, "a pool of the document")?;
        let start = Start {
            image: self.image.clone(),
            level: self.asked.level,
            entry: self.asked.entry,
            words: self.asked.words.clone(),
        };
        let mut buffer = vec![0; self.asked.places];
        let (answer, steps) = pool.run(number, &start, BUDGET, &mut buffer);
        in_words(answer, steps, &buffer)
    }
}

/// How a state ends, in words, where so many steps were taken before.
fn ended(state: State, program: &Program, before: Steps) -> Result<String, Refusal> {
    let mut buffer = [0; BUFFER];
    let (_, answer, steps) = state.budget(program, BUDGET, &mut buffer);
    in_words(answer, before + steps, &buffer)
}

/// An end after so many steps, in words.
fn in_words(answer: Answer, steps: Steps, buffer: &[Integer]) -> Result<String, Refusal> {
    let end = match answer {
        Answer::Refused(refusal) => return Err(refusal),
        Answer::Ended(End::Integer(integer)) => format!("DONE {integer}"),
        Answer::Ended(End::Vector(length)) => format!("DONE {:?}", &buffer[..length]),
        Answer::Ended(other) => format!("{other:?}").to_uppercase(),
        Answer::Steps | Answer::Stuck => panic!("{answer:?}"),
    };
    let plural = if steps == 1 { "" } else { "s" };
    Ok(format!("{end} after {steps} step{plural}"))
}

/// The versions of an image with their bounds: `1.0 1 step, 0.0 7 steps, 2.0 none`.
fn listed(image: &[u8]) -> Result<String, Refusal> {
    let rows = bounds_of(image)?;
    let rows = rows.iter().map(|row| {
        let bound = match row.bound {
            Bound::Steps(1) => "1 step".to_string(),
            Bound::Steps(steps) => format!("{steps} steps"),
            Bound::Large => "large".to_string(),
            Bound::None => "none".to_string(),
        };
        format!("{}.{} {bound}", row.function, row.version)
    });
    Ok(rows.collect::<Vec<_>>().join(", "))
}

/// What is offered for a refused image: `; mend: r1 of 0.0: int in place of vector`, or
/// that nothing is; nothing for those that no mend is looked for.
fn mended(image: &[u8]) -> String {
    let (offset, value) = match mend(image) {
        Mended::Byte { offset, value, .. } => (offset, value),
        Mended::Unmended(_) => return "; no mend".to_string(),
        Mended::Accepted(_) | Mended::Refused(_) => return String::new(),
    };
    let program = Program::ordered(image).expect("6 or a later question refuses it");
    let mut versions = program.versions.iter().rev();
    let version = versions.find(|version| version.offset < offset);
    let version = version.expect("a register type of a version");
    let (head, register) = (&version.head, offset - version.offset - 10);
    let sort = match register < usize::from(head.parameters) {
        true => "parameter ",
        false => "",
    };
    let [new, old] = [value, image[offset]].map(|byte| text::type_text(Type(byte)));
    let (function, number) = (head.function, head.version);
    format!("; mend: {sort}r{register} of {function}.{number}: {new} in place of {old}")
}

/// What comes of a trial of an image; a run is kept for the changes behind it.
fn outcome(trial: &Trial, image: Vec<u8>, run: &mut Option<Run>) -> Result<String, Refusal> {
    match *trial {
        Trial::Checked => match verdict(&image) {
            Verdict::Accepted(_) => Ok("accepted".to_string()),
            Verdict::Refused(refusal) => Err(refusal),
        },
        Trial::Counted => {
            let report = report(&image);
            Ok(report.lines().next().unwrap_or_default().to_string())
        }
        Trial::Bounded => listed(&image),
        Trial::Run(words, places) => {
            let asked = asked(words, places);
            run.insert(Run { image, asked }).outcome()
        }
        Trial::Changed(steps) => {
            let run = run.as_ref().expect("a run before the change");
            run.outcome_under(&image, steps)
        }
        Trial::Pooled(ref reserves, number, words) => {
            let asked = asked(words, BUFFER);
            Run { image, asked }.outcome_in_pool(reserves, number)
        }
        Trial::Watched(steps, words, records) => {
            let asked = asked(words, BUFFER);
            Run { image, asked }.outcome_watched(steps, records)
        }
        Trial::Back(steps, words) => {
            let asked = asked(words, BUFFER);
            Run { image, asked }.outcome_behind(steps)
        }
        Trial::Moved(places) => {
            let moved = move_from(Form::Wide, &image, places)?;
            Ok(format!("{} bytes", moved.len()))
        }
        Trial::Joined(times, places) => {
            let length = joined(&image, times, places)?;
            Ok(format!("{length} bytes"))
        }
    }
}

#[test]
fn each_script_does_what_the_line_above_it_says() {
    let (mut run, mut wrong) = (None, Vec::new());
    for Example {
        caption, script, ..
    } in examples()
    {
        let (trial, said) = trial(caption).unwrap_or_else(|| panic!("no trial: {caption}"));
        let found = outcome(&trial, exact(&script), &mut run);
        let found = found.unwrap_or_else(|no| {
            let mend = match trial {
                Trial::Checked => mended(&exact(&script)),
                _ => String::new(),
            };
            format!("refused by {} at {}{mend}", no.number, no.offset)
        });
        if found != said {
            wrong.push(format!("{caption}, but: {found}\n{script}"));
        }
    }
    assert!(wrong.is_empty(), "{}", wrong.join("\n"));
}

#[test]
fn each_refusal_has_a_section_in_the_order_of_the_questions() {
    let sections: Vec<u8> = DOCUMENT.lines().filter_map(refusal_of).collect();
    assert_eq!(sections, [&QUESTIONS[..], &FURTHER].concat());
}

#[test]
fn each_refusal_has_a_wrong_script_and_a_mended_one_behind_it() {
    let examples = examples();
    for number in QUESTIONS.into_iter().chain(FURTHER) {
        let here = examples.iter().filter(|example| example.section == number);
        let no = format!("refused by {number} at ");
        let refused: Vec<bool> = here.map(|one| one.caption.contains(&no)).collect();
        let first = refused.iter().position(|&refused| refused);
        let first = first.unwrap_or_else(|| panic!("no wrong script of {number}"));
        assert!(
            refused[first..].iter().any(|refused| !refused),
            "no mended script of {number}"
        );
    }
}

#[test]
fn refusals_that_a_type_mends_show_one() {
    let examples = examples();
    for number in reference::mends::MENDED {
        let mut here = examples.iter().filter(|example| example.section == number);
        let mended = here.any(|one| one.caption.contains("; mend: "));
        assert!(mended, "no mend is shown of {number}");
    }
}

/// The bytes of a command such as `printf '\013\0' | ./check`.
fn printed(line: &str) -> Option<Vec<u8>> {
    let (bytes, _) = line.strip_prefix("    printf '")?.split_once('\'')?;
    let octal = |digits: &str| u8::from_str_radix(digits, 8).expect("octal digits");
    Some(bytes.split('\\').skip(1).map(octal).collect())
}

#[test]
fn commands_make_the_images_of_the_scripts_above_them() {
    let printed: Vec<Vec<u8>> = DOCUMENT.lines().filter_map(printed).collect();
    let examples = examples();
    let scripts = examples.iter().filter(|example| example.section == 2);
    let images: Vec<Vec<u8>> = scripts.map(|example| exact(&example.script)).collect();
    assert_eq!(printed, images);
}

/// The words that stand between backticks.
fn quoted(text: &str) -> impl Iterator<Item = &str> {
    text.split('`').skip(1).step_by(2)
}

/// Is the name a word of the text?
fn names(text: &str, name: &str) -> bool {
    let letters = |c: char| c.is_alphanumeric() || c == '-' || c == '_';
    text.split(|c| !letters(c)).any(|word| word == name)
}

/// A file of definitions that the document names.
struct Definitions {
    folder: PathBuf,
    text: String,
}

impl Definitions {
    /// The file of a name, in the folder of the one before where it names none.
    fn read(name: &str, before: Option<Definitions>) -> Definitions {
        let crates = Path::new(env!("CARGO_MANIFEST_DIR")).join("../../crates");
        let beside = before.map_or(crates.clone(), |before| before.folder);
        let folder = if name.contains('/') { crates } else { beside };
        let file = folder.join(name);
        let text = fs::read_to_string(&file).unwrap_or_else(|_| panic!("{name} is missing"));
        let folder = file.parent().expect("a folder").to_path_buf();
        Definitions { folder, text }
    }
}

/// Names in brackets are files of definitions, and what stands in the last one.
#[test]
fn definitions_are_where_the_document_says() {
    let mut last: Option<Definitions> = None;
    for bracket in DOCUMENT.split('(').skip(1) {
        for name in quoted(bracket.split(')').next().unwrap_or_default()) {
            if name.ends_with(".antt") {
                last = Some(Definitions::read(name, last));
                continue;
            }
            let stands = last.as_ref().is_some_and(|last| names(&last.text, name));
            assert!(stands, "{name} in ({bracket}");
        }
    }
    assert!(last.is_some(), "no definition is named");
}
