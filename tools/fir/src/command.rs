//! The command line.

use crate::arguments::Argument;
use crate::completion::Shell;
use crate::explain;
use crate::failure::Failure;
use crate::help::{self, Topic};
use crate::options::Words;
use crate::source;
use library::{Entry, Form, FACTORY, PORTAL, STAFF};
use std::ffi::{OsStr, OsString};
use std::path::Path;

/// The steps that `fir run` and `fir debug` take at most, unless the command line says
/// otherwise.
pub const RUN_BUDGET: u32 = 10_000_000;
/// The steps that `fir trace` takes at most, unless the command line says otherwise.
pub const TRACE_BUDGET: u32 = 100_000;

/// What the command line asks for.
#[derive(Clone, PartialEq, Eq, Debug)]
pub enum Command {
    /// A help text.
    Help(String),
    /// `fir --version`
    Version,
    /// `fir check`
    Check(Check),
    /// `fir run`
    Run {
        /// The run.
        call: Call,
        /// Are its steps to be counted?
        stats: bool,
        /// Is JSON to be printed?
        json: bool,
    },
    /// `fir trace`
    Trace {
        /// The run.
        call: Call,
        /// Are the sums of its steps to be printed?
        stats: bool,
        /// Is JSON to be printed?
        json: bool,
        /// The file of the page, if one is to be written.
        html: Option<OsString>,
    },
    /// `fir debug`
    Debug(Call),
    /// `fir pool`
    Pool(Pooling),
    /// `fir bounds`
    Bounds(Bounds),
    /// `fir lint`
    Lint(Lint),
    /// `fir test`
    Test(Testing),
    /// `fir move`
    Move(Move),
    /// `fir join`
    Join(Join),
    /// `fir mend`
    Mend(Mend),
    /// `fir fmt`
    Format(Formatting),
    /// `fir asm`
    Assemble(Conversion),
    /// `fir dis`
    Disassemble(Conversion),
    /// `fir explain`, of a question or an end, or of all.
    Explain(Option<&'static str>),
    /// `fir completion`
    Completion(Shell),
}

/// Images that are to be checked.
#[derive(Clone, PartialEq, Eq, Debug)]
pub struct Check {
    /// The images.
    pub files: Vec<OsString>,
    /// The form whose questions they are put to.
    pub form: Form,
    /// Is a mend to be offered beside a refusal?
    pub mend: bool,
    /// Is JSON to be printed?
    pub json: bool,
}

/// Images whose versions are to be listed with their bounds.
#[derive(Clone, PartialEq, Eq, Debug)]
pub struct Bounds {
    /// The images.
    pub files: Vec<OsString>,
    /// The most steps that an entry may take, if that is asked.
    pub under: Option<u32>,
    /// The entries that it is asked of; all versions where there is none.
    pub entries: Vec<Entry>,
    /// Is it to be said what bounds are made of?
    pub why: bool,
    /// Is JSON to be printed?
    pub json: bool,
}

/// Images that are to be looked through.
#[derive(Clone, PartialEq, Eq, Debug)]
pub struct Lint {
    /// The images.
    pub files: Vec<OsString>,
    /// The versions that runs enter; all of function 0 where there is none.
    pub entries: Vec<Entry>,
    /// Is JSON to be printed?
    pub json: bool,
}

/// Scripts whose tests are to be tried.
#[derive(Clone, PartialEq, Eq, Debug)]
pub struct Testing {
    /// The scripts.
    pub files: Vec<OsString>,
    /// What a test's line has to hold to be tried.
    pub filter: Option<String>,
    /// Is JSON to be printed?
    pub json: bool,
}

/// A run that is asked for.
#[derive(Clone, PartialEq, Eq, Debug)]
pub struct Call {
    /// The image.
    pub file: OsString,
    /// The level that the run states.
    pub level: usize,
    /// The version to enter.
    pub entry: Entry,
    /// Its arguments.
    pub arguments: Vec<Argument>,
    /// The most steps.
    pub budget: u32,
    /// The images to go on under, in the order of their steps.
    pub then: Vec<Then>,
}

/// An image to go on under.
#[derive(Clone, PartialEq, Eq, Debug)]
pub struct Then {
    /// The image.
    pub file: OsString,
    /// After how many steps, counted from the start.
    pub step: u32,
}

/// A plan of runs in a pool.
#[derive(Clone, PartialEq, Eq, Debug)]
pub struct Pooling {
    /// The file of the plan.
    pub plan: OsString,
    /// Is the most that each had to be printed?
    pub stats: bool,
    /// Is JSON to be printed?
    pub json: bool,
}

/// Images that are to be moved.
#[derive(Clone, PartialEq, Eq, Debug)]
pub struct Move {
    /// The images.
    pub files: Vec<OsString>,
    /// The file that is written, or the folder.
    pub out: OsString,
    /// The form that they are moved to.
    pub to: Form,
}

/// Images that are to be joined.
#[derive(Clone, PartialEq, Eq, Debug)]
pub struct Join {
    /// The images, two at least.
    pub files: Vec<OsString>,
    /// The file that is written.
    pub out: OsString,
    /// Is JSON to be printed?
    pub json: bool,
}

/// An image that is to be mended.
#[derive(Clone, PartialEq, Eq, Debug)]
pub struct Mend {
    /// The image.
    pub file: OsString,
    /// The file that is written, if one is.
    pub out: Option<OsString>,
    /// Is JSON to be printed?
    pub json: bool,
}

/// Texts that are to be laid out anew.
#[derive(Clone, PartialEq, Eq, Debug)]
pub struct Formatting {
    /// The texts.
    pub files: Vec<OsString>,
    /// Is it only asked whether they would be others?
    pub check: bool,
}

/// From one file to another.
#[derive(Clone, PartialEq, Eq, Debug)]
pub struct Conversion {
    /// What is read.
    pub file: OsString,
    /// What is written; none for standard output.
    pub out: Option<OsString>,
}

impl Command {
    /// The command of the arguments after the tool's name.
    pub fn parse(arguments: &[OsString]) -> Result<Command, Failure> {
        let wrong = |reason: String| Failure::Usage(None, reason);
        let Some((first, rest)) = arguments.split_first() else {
            return Err(wrong("no command is given".to_string()));
        };
        match (&*first.to_string_lossy(), rest.first()) {
            ("help", Some(name)) => Ok(Command::Help(topic(name)?.help())),
            ("--help" | "-h" | "help", _) => Ok(Command::Help(help::all())),
            ("--version" | "-V", None) => Ok(Command::Version),
            _ => parse_topic(topic(first)?, rest),
        }
    }
}

/// The command of a name.
fn topic(name: &OsStr) -> Result<&'static Topic, Failure> {
    let name = name.to_string_lossy();
    let mut topics = help::COMMANDS.iter();
    let found = topics.find(|topic| topic.name == name);
    found.ok_or_else(|| Failure::Usage(None, format!("`{name}` is no command")))
}

/// A command of a known name.
fn parse_topic(topic: &'static Topic, rest: &[OsString]) -> Result<Command, Failure> {
    if rest.iter().any(|word| word == "--help" || word == "-h") {
        return Ok(Command::Help(topic.help()));
    }
    let words = Words::parse(topic.options, rest);
    let command = words.and_then(|words| parse_command(topic.name, words));
    command.map_err(|reason| Failure::Usage(Some(topic.name), reason))
}

/// A command of a known name and its words.
fn parse_command(name: &str, words: Words) -> Result<Command, String> {
    match name {
        "check" => parse_check(words).map(Command::Check),
        "run" => parse_run(words),
        "trace" => parse_trace(words),
        "debug" => parse_debug(words).map(Command::Debug),
        "pool" => parse_pool(words).map(Command::Pool),
        "bounds" => parse_bounds(words).map(Command::Bounds),
        "lint" => parse_lint(words).map(Command::Lint),
        "test" => parse_test(words).map(Command::Test),
        "move" => parse_move(words).map(Command::Move),
        "join" => parse_join(words).map(Command::Join),
        "mend" => parse_mend(words).map(Command::Mend),
        "fmt" => parse_formatting(words).map(Command::Format),
        "asm" => parse_assembly(words).map(Command::Assemble),
        "dis" => parse_conversion(words).map(Command::Disassemble),
        "explain" => parse_explain(words).map(Command::Explain),
        _ => parse_completion(words).map(Command::Completion),
    }
}

/// Images that are to be checked.
fn parse_check(mut words: Words) -> Result<Check, String> {
    let form = parse_form(&mut words, "--form")?;
    let (json, mend) = (words.flag("--json")?, !words.flag("--no-mend")?);
    let files = words.files()?;
    ask_standard_input_once(&files)?;
    Ok(Check {
        files,
        form,
        mend,
        json,
    })
}

/// Images whose versions are to be listed with their bounds.
fn parse_bounds(mut words: Words) -> Result<Bounds, String> {
    let (why, json) = (words.flag("--why")?, words.flag("--json")?);
    let under = words.option("--under")?;
    let under = under.map(|text| parse_steps(&text, "number of steps"));
    let under = under.transpose()?;
    let entries = parse_entries(&mut words)?;
    if under.is_none() && !entries.is_empty() {
        return Err("--entry stands beside --under alone".to_string());
    }
    let files = words.files()?;
    ask_standard_input_once(&files)?;
    Ok(Bounds {
        files,
        under,
        entries,
        why,
        json,
    })
}

/// The versions that --entry names.
fn parse_entries(words: &mut Words) -> Result<Vec<Entry>, String> {
    let entries = words.options("--entry");
    let entries = entries.iter().map(|entry| parse_entry(&plain(entry)?));
    entries.collect()
}

/// Images that are to be looked through.
fn parse_lint(mut words: Words) -> Result<Lint, String> {
    let json = words.flag("--json")?;
    let entries = parse_entries(&mut words)?;
    let files = words.files()?;
    ask_standard_input_once(&files)?;
    Ok(Lint {
        files,
        entries,
        json,
    })
}

/// Scripts whose tests are to be tried.
fn parse_test(mut words: Words) -> Result<Testing, String> {
    let json = words.flag("--json")?;
    let filter = words.option("--filter")?;
    let filter = filter.map(|text| plain(&text)).transpose()?;
    let files = words.files()?;
    ask_standard_input_once(&files)?;
    Ok(Testing {
        files,
        filter,
        json,
    })
}

/// `fir run`
fn parse_run(mut words: Words) -> Result<Command, String> {
    let (stats, json) = (words.flag("--stats")?, words.flag("--json")?);
    let call = parse_call(words, RUN_BUDGET)?;
    Ok(Command::Run { call, stats, json })
}

/// `fir trace`
fn parse_trace(mut words: Words) -> Result<Command, String> {
    let (json, html) = (words.flag("--json")?, words.option("--html")?);
    let stats = words.flag("--stats")?;
    if json && html.is_some() {
        return Err("--json and --html do not go together".to_string());
    }
    if let Some(file) = html
        .as_ref()
        .filter(|file| source::is_text(Path::new(file)))
    {
        let file = file.to_string_lossy();
        return Err(format!("`{file}` would hold a page, and .fir names texts"));
    }
    let call = parse_call(words, TRACE_BUDGET)?;
    Ok(Command::Trace {
        call,
        stats,
        json,
        html,
    })
}

/// `fir debug`
fn parse_debug(words: Words) -> Result<Call, String> {
    let call = parse_call(words, RUN_BUDGET)?;
    if call.file == "-" {
        return Err("standard input holds the debugger's commands, and no image".to_string());
    }
    Ok(call)
}

/// What is to be explained; none for all.
fn parse_explain(mut words: Words) -> Result<Option<&'static str>, String> {
    let word = words.next().map(|word| plain(&word)).transpose()?;
    words.finish()?;
    explain::parse(word.as_deref())
}

/// `fir completion`
fn parse_completion(mut words: Words) -> Result<Shell, String> {
    let shells = "bash, zsh or fish";
    let word = words.next();
    let word = word.ok_or_else(|| format!("no shell is named: {shells}"))?;
    words.finish()?;
    let shell = Shell::parse(&word.to_string_lossy());
    shell.ok_or_else(|| format!("`{}` is no shell of {shells}", word.to_string_lossy()))
}

/// Asks that standard input is named once at most.
fn ask_standard_input_once(files: &[OsString]) -> Result<(), String> {
    match files.iter().filter(|&file| file == "-").count() {
        0 | 1 => Ok(()),
        _ => Err("standard input is named twice".to_string()),
    }
}

/// `fir pool`
fn parse_pool(mut words: Words) -> Result<Pooling, String> {
    let (stats, json) = (words.flag("--stats")?, words.flag("--json")?);
    let plan = words.next().ok_or("no plan is named")?;
    words.finish()?;
    Ok(Pooling { plan, stats, json })
}

/// A run, with the budget that it has where the words name none.
pub fn parse_call(mut words: Words, mut budget: u32) -> Result<Call, String> {
    if let Some(text) = words.option("--budget")? {
        budget = parse_steps(&text, "budget")?;
    }
    let level = parse_level(&mut words)?;
    let then = parse_changes(&words.options("--then"))?;
    let file = words.file()?;
    let entry = words.next().ok_or("no version is named, such as 0.0")?;
    let entry = parse_entry(&plain(&entry)?)?;
    let mut arguments = Vec::new();
    while let Some(word) = words.next() {
        arguments.push(Argument::parse(&plain(&word)?)?);
    }
    let files = then.iter().map(|then| then.file.clone());
    let files: Vec<OsString> = files.chain([file.clone()]).collect();
    ask_standard_input_once(&files)?;
    Ok(Call {
        file,
        level,
        entry,
        arguments,
        budget,
        then,
    })
}

/// The level that a run states, the highest where no option says it.
fn parse_level(words: &mut Words) -> Result<usize, String> {
    let Some(level) = words.option("--level")? else {
        return Ok(FACTORY);
    };
    level_of(&plain(&level)?)
}

/// The level of a word.
pub fn level_of(word: &str) -> Result<usize, String> {
    match word {
        "portal" | "0" => Ok(PORTAL),
        "staff" | "1" => Ok(STAFF),
        "factory" | "2" => Ok(FACTORY),
        other => Err(format!(
            "--level is portal, staff or factory, not `{other}`"
        )),
    }
}

/// The images to go on under, in the order of their steps.
fn parse_changes(texts: &[OsString]) -> Result<Vec<Then>, String> {
    let changes: Result<Vec<Then>, String> = texts.iter().map(|text| parse_then(text)).collect();
    let mut changes = changes?;
    changes.sort_by_key(|then| then.step);
    Ok(changes)
}

/// An image and a number of steps such as new.fir@100.
pub fn parse_then(text: &OsStr) -> Result<Then, String> {
    let text = plain(text)?;
    let wrong = || format!("`{text}` is no image and step such as new.fir@100");
    let (file, step) = text.rsplit_once('@').ok_or_else(wrong)?;
    let step = step.parse().map_err(|_| wrong())?;
    if file.is_empty() {
        return Err(wrong());
    }
    let file = file.into();
    Ok(Then { file, step })
}

/// `fir asm`, which writes bytes.
fn parse_assembly(words: Words) -> Result<Conversion, String> {
    let conversion = parse_conversion(words)?;
    if let Some(out) = &conversion.out {
        source::ask_bytes(Path::new(out))?;
    }
    Ok(conversion)
}

/// A conversion.
fn parse_conversion(mut words: Words) -> Result<Conversion, String> {
    let out = words.option("-o")?;
    let file = words.file()?;
    words.finish()?;
    Ok(Conversion { file, out })
}

/// Images that are to be moved.
fn parse_move(mut words: Words) -> Result<Move, String> {
    let to = parse_form(&mut words, "--to")?;
    let out = words.option("-o")?;
    let files = words.files()?;
    let out = out.ok_or("-o is missing: the file or the folder to write to")?;
    if files.len() > 1 && files.iter().any(|file| file == "-") {
        return Err("standard input is named beside other images".to_string());
    }
    Ok(Move { files, out, to })
}

/// Images that are to be joined.
fn parse_join(mut words: Words) -> Result<Join, String> {
    let json = words.flag("--json")?;
    let out = words.option("-o")?;
    let files = words.files()?;
    let out = out.ok_or("-o is missing: the file to write to")?;
    if files.len() < 2 {
        return Err("a second image is missing: two or more are joined".to_string());
    }
    ask_standard_input_once(&files)?;
    Ok(Join { files, out, json })
}

/// An image that is to be mended.
fn parse_mend(mut words: Words) -> Result<Mend, String> {
    let json = words.flag("--json")?;
    let out = words.option("-o")?;
    let file = words.file()?;
    words.finish()?;
    Ok(Mend { file, out, json })
}

/// Texts that are to be laid out anew.
fn parse_formatting(mut words: Words) -> Result<Formatting, String> {
    let check = words.flag("--check")?;
    let files = words.files()?;
    ask_standard_input_once(&files)?;
    Ok(Formatting { files, check })
}

/// The form that an option names, that of 64 bits where it does not stand.
fn parse_form(words: &mut Words, option: &str) -> Result<Form, String> {
    match words.option(option)? {
        None => Ok(Form::Wide),
        Some(bits) if bits == "64" => Ok(Form::Wide),
        Some(bits) if bits == "32" => Ok(Form::Narrow),
        Some(bits) => Err(format!(
            "{option} is 32 or 64, not `{}`",
            bits.to_string_lossy()
        )),
    }
}

/// A number of steps; `what` it is called in a message.
fn parse_steps(text: &OsStr, what: &str) -> Result<u32, String> {
    plain_steps(&plain(text)?, what)
}

/// The same of a word in UTF-8.
pub fn plain_steps(text: &str, what: &str) -> Result<u32, String> {
    let wrong = || format!("`{text}` is no {what} of 0 to {}", u32::MAX);
    text.parse().map_err(|_| wrong())
}

/// A version such as 0.0.
pub fn parse_entry(text: &str) -> Result<Entry, String> {
    let numbers = text.split_once('.');
    let numbers = numbers.and_then(|(f, v)| Some((f.parse().ok()?, v.parse().ok()?)));
    let (function, version) =
        numbers.ok_or_else(|| format!("`{text}` names no version; write one such as 0.0"))?;
    Ok(Entry { function, version })
}

/// A word that is no file's name.
fn plain(word: &OsStr) -> Result<String, String> {
    let text = word.to_str().map(str::to_string);
    text.ok_or_else(|| format!("`{}` is not in UTF-8", word.to_string_lossy()))
}
