//! How long a step takes: by the proved engine, by the reference without its
//! monitor, and by the tuned interpreter.
//!
//! An argument says how many rounds each is timed at most, the three in turn.

use differential::difference::difference;
use differential::engine;
use differential::paced::Paced;
use differential::snapshot::state_of;
use differential::tuned::{Code, Machine};
use differential::workloads::{workloads, Workload};
use reference::bounds::{Steps, BUFFER};
use reference::{Answer, Integer, Program, State};
use std::env;
use std::hint::black_box;
use std::time::Instant;

/// How many rounds each interpreter is timed, if no argument says it.
const ROUNDS: usize = 9;

/// The fewest rounds, and about how many seconds all rounds of a workload may take.
const FEWEST: usize = 3;
const SECONDS: f64 = 30.0;

/// A budget that no workload uses up.
const BUDGET: Steps = 100_000_000;

/// What a run gave: its answer, its steps, and the buffer after it.
type Outcome = (Answer, Steps, [Integer; BUFFER]);

/// A workload that has begun on each side.
struct Prepared<'i> {
    program: Program,
    code: Code,
    begun: State,
    proved: Paced<'i>,
}

impl<'i> Prepared<'i> {
    /// Begins the run of a workload.
    fn new(workload: &'i Workload) -> Prepared<'i> {
        let program = Program::accept(&workload.image);
        let program = program.unwrap_or_else(|refusal| {
            panic!("{}: {refusal:?}", workload.name);
        });
        let (words, buffer) = (&Workload::WORDS, &[0; BUFFER]);
        let begun = State::begin(
            &program,
            Workload::LEVEL,
            workload.function,
            0,
            words,
            buffer,
        );
        let entry = (workload.function, 0);
        let (proved, answer) =
            engine::begin(&workload.image, Workload::LEVEL, entry, words, buffer);
        assert_eq!(answer, Ok(()), "{}", workload.name);
        Prepared {
            code: Code::new(&program),
            program,
            begun: begun.expect("the workload begins"),
            proved,
        }
    }

    /// The run by the proved engine, in one budget.
    fn proved(&self) -> Outcome {
        let mut buffer = [-1; BUFFER];
        let (answer, steps) = engine::budget(&mut self.proved.clone(), BUDGET, &mut buffer);
        (answer, steps, buffer)
    }

    /// Asserts that the proved engine and the reference are in the same state
    /// after so many steps.
    fn assert_halfway(&self, steps: Steps) {
        let (state, buffer) = (self.begun.clone(), &mut [0; BUFFER]);
        let (expected, ..) = state.budget(&self.program, steps, buffer);
        let mut run = self.proved.clone();
        engine::budget(&mut run, steps, buffer);
        let found = state_of(run.state()).expect("numbers that stand for a state");
        assert_eq!(difference(&expected.tidied(), &found), None);
    }

    /// The run by the reference.
    fn reference(&self) -> Outcome {
        let mut buffer = [-1; BUFFER];
        let state = self.begun.clone();
        let (_, answer, steps) = state.budget(&self.program, BUDGET, &mut buffer);
        (answer, steps, buffer)
    }

    /// The run by the tuned interpreter.
    fn tuned(&self) -> Outcome {
        let mut buffer = [-1; BUFFER];
        let mut machine = Machine::new(&self.program, &self.code, &self.begun);
        let (answer, steps) = machine.budget(BUDGET);
        let result = machine.result();
        buffer[..result.len()].copy_from_slice(result);
        (answer, steps, buffer)
    }
}

/// Times of one step in nanoseconds.
#[derive(Default)]
struct Times(Vec<f64>);

impl Times {
    /// Times a run of so many steps once more; the seconds that it took.
    fn add(&mut self, steps: Steps, run: impl Fn() -> Outcome) -> f64 {
        let start = Instant::now();
        black_box(run());
        let seconds = start.elapsed().as_secs_f64();
        self.0.push(seconds * 1e9 / f64::from(steps));
        seconds
    }

    /// The times in order.
    fn sorted(&self) -> Vec<f64> {
        let mut times = self.0.clone();
        times.sort_by(f64::total_cmp);
        times
    }

    /// The time in the middle.
    fn median(&self) -> f64 {
        self.sorted()[self.0.len() / 2]
    }

    /// A line of the table: the median, the least and the greatest.
    fn print(&self, name: &str) {
        let times = self.sorted();
        let (least, greatest) = (times[0], times[times.len() - 1]);
        let median = self.median();
        println!("  {name:<12}median {median:>9.2}   from {least:.2} to {greatest:.2}");
    }
}

fn main() {
    let rounds = env::args().nth(1);
    let rounds = rounds.map_or(ROUNDS, |text| text.parse().expect("a number of rounds"));
    if cfg!(feature = "stand_in") {
        println!("The reference stands in for the proved engine.\n");
    }
    println!("nanoseconds per step: the median and the spread of all rounds, the three in turn\n");
    let rows: Vec<String> = workloads().iter().map(|w| compare(w, rounds)).collect();
    println!("| workload | proved | reference | tuned | proved / tuned |\n|---|---|---|---|---|");
    println!("{}", rows.join("\n"));
}

/// Times the three on a workload, after asserting that they agree; a row of the table.
fn compare(workload: &Workload, rounds: usize) -> String {
    let name = workload.name;
    let prepared = Prepared::new(workload);
    let expected = prepared.reference();
    let (answer, steps, _) = expected;
    assert!(matches!(answer, Answer::Ended(_)), "{name}: {answer:?}");
    assert_eq!(prepared.tuned(), expected, "{name}: the tuned interpreter");
    assert_eq!(prepared.proved(), expected, "{name}: the proved engine");
    prepared.assert_halfway(steps / 2);
    let times = timed(&prepared, steps, rounds);
    let rounds = times[0].0.len();
    println!("{name}: {steps} steps, {answer:?}, {rounds} rounds");
    let [proved, reference, tuned] = &times;
    proved.print("proved");
    reference.print("reference");
    tuned.print("tuned");
    let [own, slow, fast] = [proved, reference, tuned].map(Times::median);
    let (by_slow, by_fast) = (own / slow, own / fast);
    println!("  proved/reference {by_slow:.3}, proved/tuned {by_fast:.2}\n");
    format!("| {name} | {own:.1} | {slow:.0} | {fast:.1} | {by_fast:.2} |")
}

/// The times of the proved engine, the reference and the tuned interpreter,
/// each timed in turn, for fewer rounds if they are slow.
fn timed(prepared: &Prepared, steps: Steps, rounds: usize) -> [Times; 3] {
    let [mut proved, mut reference, mut tuned] = [(); 3].map(|()| Times::default());
    let mut seconds = 0.0;
    for round in 0..rounds {
        if round >= FEWEST && seconds > SECONDS {
            break;
        }
        seconds += proved.add(steps, || prepared.proved());
        seconds += reference.add(steps, || prepared.reference());
        seconds += tuned.add(steps, || prepared.tuned());
    }
    [proved, reference, tuned]
}
