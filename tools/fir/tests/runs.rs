//! `fir run` and `fir trace` beside the reference, on generated programs.

mod support;

use generator::{
    accepted, accepted_of, entry, update, words, Random, Special, Theme, Trap, Update,
};
use reference::longest::bound_of;
use reference::{change, Answer, Bound, End, Integer, Program, Refusal, Said, State, Status};
use std::collections::BTreeMap;
use support::{arguments, file, fir, Done, STEPS, STOPPED, UNDEF};

/// How many programs are generated, and how many to be changed while they run.
const PROGRAMS: u64 = 1_500;
const CHANGED: u64 = 500;

/// What the reference counts of a run.
#[derive(Default)]
struct Counted {
    steps: usize,
    calls: usize,
    /// Of each DISPATCH step, how many versions it looked at, and of how many.
    searches: Vec<(u8, u8)>,
    /// The bound of the entry; none where the run goes on under another image.
    bound: Option<Bound>,
}

impl Counted {
    /// Nothing yet of a run of this entry.
    fn new(program: &Program, entry: (usize, usize)) -> Counted {
        Counted {
            bound: bound_of(program, entry.0, entry.1),
            ..Counted::default()
        }
    }

    /// Takes at most so many steps, and counts those that count; the state after them.
    fn steps(&mut self, program: &Program, mut state: State, budget: u32) -> State {
        for _ in 0..budget {
            let (search, calls) = (state.search(program), state.frames.len());
            let ended = state.status != Status::Running;
            let (after, said) = state.step(program);
            state = after;
            let counts = match said {
                Said::GoesOn => true,
                Said::Ended(end) => end.counts(),
                Said::Stuck => panic!("a step is stuck"),
            };
            if ended || !counts {
                break;
            }
            self.steps += 1;
            self.calls += usize::from(state.frames.len() > calls);
            let search = search.map(|search| (search.looked(), search.versions));
            self.searches.extend(search);
        }
        state
    }

    /// What `--stats` prints.
    fn lines(&self) -> String {
        let sum = |part: fn(&(u8, u8)) -> u8| {
            let parts = self.searches.iter().map(|search| usize::from(part(search)));
            parts.sum::<usize>()
        };
        let bound = match self.bound {
            None => String::new(),
            Some(Bound::Steps(most)) => format!(" of at most {most}"),
            Some(Bound::Large) => ", the bound is large".to_string(),
            Some(Bound::None) => ", no bound is given".to_string(),
        };
        format!(
            "  steps: {}{bound}\n  calls: {}\n  DISPATCH steps: {}, looked at {} of {} versions\n",
            self.steps,
            self.calls,
            self.searches.len(),
            sum(|search| search.0),
            sum(|search| search.1),
        )
    }
}

/// The searches that the lines of a trace show.
fn traced_searches(trace: &str) -> Vec<(u8, u8)> {
    let shown = trace.lines().filter_map(|line| {
        let (_, behind) = line.split_once(" looked at ")?;
        let (numbers, _) = behind.split_once(',')?;
        let (looked, versions) = numbers.split_once(" of ")?;
        Some((looked.parse().ok()?, versions.parse().ok()?))
    });
    shown.collect()
}

/// The name of an answer, and how the first line of the output begins.
fn expected(answer: Answer, buffer: &[Integer]) -> (&'static str, String) {
    match answer {
        Answer::Ended(End::Integer(integer)) => ("DONE integer", format!("DONE {integer}")),
        Answer::Ended(End::Vector(length)) => {
            ("DONE vector", format!("DONE {:?}", &buffer[..length]))
        }
        Answer::Ended(End::Undef) => ("UNDEF", "UNDEF".to_string()),
        Answer::Ended(End::Deep) => ("DEEP", "DEEP".to_string()),
        Answer::Ended(End::Vectors) => ("VECTORS", "VECTORS".to_string()),
        Answer::Ended(End::Promises) => ("PROMISES", "PROMISES".to_string()),
        Answer::Steps => ("STEPS", "STEPS".to_string()),
        Answer::Stuck | Answer::Refused(_) => panic!("{answer:?}"),
    }
}

/// A program of a seed; every fourth hoards vectors or promises, every fourth
/// makes UNDEF by some cause.
fn program_of(seed: u64) -> Vec<u8> {
    let special = Random::new(seed).pick(&[Special::Vectors, Special::Promises]);
    let trap = Random::new(seed).pick(&Trap::ALL);
    match seed % 4 {
        0 => accepted_of(Theme::Special(special), seed),
        1 => accepted_of(Theme::Trap(trap), seed),
        _ => accepted(seed),
    }
}

/// Runs and traces a program, and compares with the reference; how the run ended.
/// The searches that were compared are counted.
fn compared(seed: u64, searched: &mut usize) -> Option<&'static str> {
    let image = program_of(seed);
    let program = Program::accept(&image).expect("an accepted image");
    let entry = entry(seed, &program)?;
    let words = words(seed, &program, entry);
    let given = arguments(&words)?;
    let budget = Random::new(seed).pick(&[0u32, 3, 40, 3000, 3000, 3000]);
    let (name, limit) = (format!("{}.{}", entry.0, entry.1), budget.to_string());
    let level = Random::new(!seed).pick(&[0usize, 1, 2, 2, 2, 2]);
    let stated = level.to_string();
    let call = |command: &[&str]| {
        let mut call = [
            command,
            &["-", &name, "--budget", &limit, "--level", &stated],
        ]
        .concat();
        call.extend(given.iter().map(String::as_str));
        fir(&call, &image)
    };
    let (run, trace) = (call(&["run"]), call(&["trace"]));
    let mut buffer = [0; 16];
    let state = match State::begin(&program, level, entry.0, entry.1, &words, &buffer) {
        Ok(state) => state,
        Err(refusal) => {
            let begin = format!("refused by {} at 0: ", refusal.number);
            assert!(run.text().starts_with(&begin), "seed {seed}");
            assert_eq!(run.text(), trace.text(), "seed {seed}");
            assert_eq!((run.status, trace.status), (1, 1), "seed {seed}");
            return Some(if refusal.number == 19 {
                "refused by 19"
            } else {
                "refused"
            });
        }
    };
    let mut counted = Counted::new(&program, entry);
    counted.steps(&program, state.clone(), budget);
    let with_stats = call(&["run", "--stats"]);
    let expected_text = run.text() + &counted.lines();
    assert_eq!(with_stats.text(), expected_text, "seed {seed}");
    assert_eq!(with_stats.status, run.status, "seed {seed}");
    let searches = traced_searches(&trace.text());
    assert_eq!(searches, counted.searches, "seed {seed}");
    *searched += searches.len();
    let (_, answer, steps) = state.budget(&program, budget, &mut buffer);
    let (name, begin) = expected(answer, &buffer);
    assert_ended(
        &run,
        &trace,
        &begin,
        steps as usize,
        &format!("seed {seed}"),
    );
    Some(name)
}

/// The exit status of an end.
fn status(begin: &str) -> u8 {
    match begin {
        "UNDEF" => UNDEF,
        "STEPS" => STEPS,
        "DEEP" | "VECTORS" | "PROMISES" => STOPPED,
        _ => 0,
    }
}

/// Asserts that a run and its trace ended so, after so many steps.
#[track_caller]
fn assert_ended(run: &Done, trace: &Done, begin: &str, steps: usize, origin: &str) {
    let unit = if steps == 1 { "step" } else { "steps" };
    let first = format!("{begin} after {steps} {unit}");
    let (run_text, trace_text) = (run.text(), trace.text());
    assert_eq!(run_text.lines().next(), Some(first.as_str()), "{origin}");
    assert_eq!(run.status, status(begin), "{origin}");
    assert_eq!(trace.status, run.status, "{origin}");
    let causeless = run_text.contains("the instruction has no result");
    assert!(!causeless, "{origin}: UNDEF without a cause");
    assert!(trace_text.ends_with(&run_text), "{origin}\n{trace_text}");
    let lines = trace_text.lines().count() - run_text.lines().count();
    assert_eq!(lines, steps, "{origin}: a line for each step");
}

#[test]
fn runs_and_traces_end_as_the_reference_says() {
    let (mut met, mut searched) = (BTreeMap::new(), 0);
    for seed in 0..PROGRAMS {
        if let Some(name) = compared(seed, &mut searched) {
            *met.entry(name).or_insert(0) += 1;
        }
    }
    println!("{met:?}, {searched} searches");
    assert!(searched >= 1_000, "{searched} searches");
    let all = [
        "DONE integer",
        "DONE vector",
        "UNDEF",
        "STEPS",
        "DEEP",
        "VECTORS",
        "PROMISES",
        "refused",
        "refused by 19",
    ];
    for name in all {
        assert!(met.contains_key(name), "never met: {name}");
    }
}

/// A run that has come to the step of a change, or to its end before it.
struct Halfway {
    image: Vec<u8>,
    new: Vec<u8>,
    /// The file of the new image, and its step.
    file: String,
    step: u32,
    state: State,
    answer: Answer,
    steps: u32,
    buffer: [Integer; 16],
    counted: Counted,
}

/// The level of a run that states none.
const HIGHEST: usize = 2;

/// The steps that a run which changes is given.
const BUDGET: u32 = 3000;

impl Halfway {
    /// What comes of the change, how the output begins, and what is counted.
    fn expected(mut self) -> (&'static str, String, Counted) {
        let (steps, file) = (self.steps, self.file.clone());
        let plural = if steps == 1 { "" } else { "s" };
        let after = format!("after {steps} step{plural}");
        if self.steps < self.step {
            let (_, begin) = expected(self.answer, &self.buffer);
            return ("not reached", format!("{begin} {after}\n"), self.counted);
        }
        match change(&self.image, &self.new, &self.state) {
            Ok(()) => {
                let program = Program::accept(&self.new).expect("an accepted image");
                let left = BUDGET - steps;
                let mut counted = self.counted;
                counted.bound = None;
                counted.steps(&program, self.state.clone(), left);
                let (_, answer, more) = self.state.budget(&program, left, &mut self.buffer);
                let (_, begin) = expected(answer, &self.buffer);
                let all = steps + more;
                let begin = format!("{after}: goes on under {file}\n{begin} after {all} ");
                ("taken", begin, counted)
            }
            Err(Refusal { number, offset }) => {
                let kind = if number == 15 { "15" } else { "refused" };
                let begin = format!("{file}: refused by {number} at {offset} {after}: ");
                (kind, begin, self.counted)
            }
        }
    }
}

/// Runs a program that goes on under another image after some steps, and compares
/// with the reference; what the change came to.
fn compared_changing(seed: u64) -> Option<&'static str> {
    let image = accepted(seed);
    let program = Program::accept(&image).expect("an accepted image");
    let entry = entry(seed, &program)?;
    let words = words(seed, &program, entry);
    let given = arguments(&words)?;
    let mut random = Random::new(seed);
    let (step, mut buffer) = (random.below(30) as u32, [0; 16]);
    let state = State::begin(&program, HIGHEST, entry.0, entry.1, &words, &buffer).ok()?;
    let mut counted = Counted::new(&program, entry);
    counted.steps(&program, state.clone(), step);
    let (state, answer, steps) = state.budget(&program, step, &mut buffer);
    let aim = Update::any(&mut random);
    let new = update(aim, seed, &image, &state.live_versions());
    let file = file("changing", "new.bin", &new);
    let (name, then) = (format!("{}.{}", entry.0, entry.1), format!("{file}@{step}"));
    let limit = BUDGET.to_string();
    let mut call = vec!["run", "-", &name, "--budget", &limit, "--then", &then];
    call.extend(given.iter().map(String::as_str));
    let text = fir(&call, &image).text();
    call.push("--stats");
    let with_stats = fir(&call, &image).text();
    let halfway = Halfway {
        image,
        new,
        file,
        step,
        state,
        answer,
        steps,
        buffer,
        counted,
    };
    let (kind, begin, counted) = halfway.expected();
    assert_eq!(with_stats, text.clone() + &counted.lines(), "seed {seed}");
    assert!(text.starts_with(&begin), "seed {seed}: {begin}\n{text}");
    let left = text.ends_with(&format!("  not reached: {then}\n"));
    assert_eq!(left, kind == "not reached", "seed {seed}\n{text}");
    let by_rule = text.contains("has the same bytes and number in both");
    assert!(!by_rule, "seed {seed}: 15 without a version\n{text}");
    Some(kind)
}

#[test]
fn runs_that_go_on_under_another_image_end_as_the_reference_says() {
    let mut met = BTreeMap::new();
    for seed in 0..CHANGED {
        if let Some(kind) = compared_changing(seed) {
            *met.entry(kind).or_insert(0) += 1;
        }
    }
    println!("{met:?}");
    for kind in ["taken", "15", "refused", "not reached"] {
        assert!(met.get(kind).is_some_and(|&count| count >= 10), "{kind}");
    }
}
