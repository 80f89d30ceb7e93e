//! The registers of the topmost call, by the proved engine and by the reference: at each step of
//! generated runs, into lists of every length from none to one more than a call can have.

use differential::engine;
use differential::parallel::in_parallel;
use generator::{accepted, entry, level, words, Tally};
use library::{
    Refusal, Register as Row, Run, FIR_IS_INTEGER, FIR_IS_PROMISE, FIR_IS_VECTOR, FIR_NOTHING,
    FIR_REGISTERS,
};
use reference::bounds::BUFFER;
use reference::watch::{Register, Shown};
use reference::{Program, Said, State};

/// How many programs are generated.
const PROGRAMS: u64 = 4_000;

/// The most steps of a run, and how many of an ended one are looked at too.
const MOST: usize = 400;
const BEYOND: usize = 2;

/// The fewest records that are compared, and of some sorts.
const FEWEST_ROWS: usize = 1_000_000;
const FEWEST: [(&str, usize); 12] = [
    ("nothing", 100_000),
    ("an integer", 100_000),
    ("a vector", 50_000),
    ("a quiet promise", 10_000),
    ("a reflective promise", 1_000),
    ("while a block of an older call is forced", 500),
    ("no live call", 1_000),
    ("after UNDEF", 400),
    ("after a stop", 300),
    ("too short", 20_000),
    ("exactly long enough", 20_000),
    ("an owned or a borrowed register", 10_000),
];

/// A record of noise, to be filled or to stay.
const NOISE: Row = Row {
    integer: -7,
    items: [-77; BUFFER],
    declared: 0xa5,
    holds: 0xa5,
    length: 0xa5,
    mark: 0xa5,
};

/// What the reference shows of a register, as a record.
fn row(register: &Register) -> Row {
    let mut row = Row {
        declared: register.declared.0,
        ..Row::BLANK
    };
    match &register.shown {
        Shown::Nothing => row.holds = FIR_NOTHING,
        Shown::Integer(integer) => (row.holds, row.integer) = (FIR_IS_INTEGER, *integer),
        Shown::Vector(items) => {
            (row.holds, row.length) = (FIR_IS_VECTOR, items.len() as u8);
            row.items[..items.len()].copy_from_slice(items);
        }
        Shown::Promise(mark) => (row.holds, row.mark) = (FIR_IS_PROMISE, mark.0),
    }
    row
}

/// A word for what a register shows.
fn word(register: &Register) -> &'static str {
    match register.shown {
        Shown::Nothing => "nothing",
        Shown::Integer(_) => "an integer",
        Shown::Vector(_) => "a vector",
        Shown::Promise(mark) if mark.0 == 0 => "a quiet promise",
        Shown::Promise(_) => "a reflective promise",
    }
}

/// Compares what both show, in a list of so many records; how many were compared.
#[track_caller]
fn compare(
    origin: &str,
    run: &Run,
    expected: &[Register],
    length: usize,
    met: &mut Tally<String>,
) -> usize {
    let mut rows = vec![NOISE; length];
    let before = run.state().clone();
    let found = run.watch(&mut rows);
    assert!(*run.state() == before, "{origin}: the state is written");
    let mut wanted = vec![NOISE; length];
    if length < expected.len() {
        let refusal = Refusal {
            question: 22,
            offset: 0,
        };
        assert_eq!(found, Err(refusal), "{origin}: {length} records");
        met.meet("too short".to_string());
    } else {
        assert_eq!(found, Ok(expected.len()), "{origin}: {length} records");
        for (to, register) in wanted.iter_mut().zip(expected) {
            *to = row(register);
            met.meet(word(register).to_string());
            if register.declared.is_owned() || register.declared.is_borrowed() {
                met.meet("an owned or a borrowed register".to_string());
            }
        }
        if length == expected.len() {
            met.meet("exactly long enough".to_string());
        }
    }
    assert_eq!(rows, wanted, "{origin}: {length} records");
    rows.len()
}

/// What is met of a state, beside what its registers hold.
fn tell(state: &State, said: Option<&Said>, met: &mut Tally<String>) {
    let newest = state.frames.len().checked_sub(1);
    match (state.activations.last(), newest) {
        (Some(top), Some(newest)) if top.frame < newest => {
            met.meet("while a block of an older call is forced".to_string());
        }
        (_, None) => met.meet("no live call".to_string()),
        _ => {}
    }
    if let Some(Said::Ended(end)) = said {
        match end {
            reference::End::Undef => met.meet("after UNDEF".to_string()),
            reference::End::Integer(_) | reference::End::Vector(_) => {}
            _ => met.meet("after a stop".to_string()),
        }
    }
}

/// Watches the run of a seed; how many records were compared.
fn watch(seed: u64, met: &mut Tally<String>) -> usize {
    let image = accepted(seed);
    let program = Program::accept(&image).expect("an accepted image");
    let Some(entry) = entry(seed, &program) else {
        return 0;
    };
    let (level, words) = (level(seed, &program, entry), words(seed, &program, entry));
    let begun = State::begin(&program, level, entry.0, entry.1, &words, &[0; BUFFER]);
    let Ok(mut state) = begun else {
        return 0;
    };
    let (paced, answer) = engine::begin(&image, level, entry, &words, &[0; BUFFER]);
    assert_eq!(answer, Ok(()), "seed {seed}: a run begins");
    let mut run = Run::clone(&paced);
    let (mut compared, mut ended, mut said) = (0, 0, None);
    for step in 0..MOST {
        let origin = format!("seed {seed}, step {step}");
        let expected = state.watch(&program);
        tell(&state, said.as_ref(), met);
        let length = (seed as usize + step) % (FIR_REGISTERS + 2);
        compared += compare(&origin, &run, &expected, length, met);
        compared += compare(&origin, &run, &expected, expected.len(), met);
        let (next, answer) = state.step(&program);
        (state, said) = (next, Some(answer));
        run.step();
        ended += usize::from(!matches!(answer, Said::GoesOn));
        if ended > BEYOND {
            break;
        }
    }
    compared
}

#[test]
fn the_topmost_call_is_shown() {
    if cfg!(feature = "stand_in") {
        println!("The definitions stand in for the proved engine.");
    }
    let (met, rows) = in_parallel(PROGRAMS, watch);
    println!("{PROGRAMS} programs, {rows} records compared\n{met}");
    assert!(rows >= FEWEST_ROWS, "{rows} records");
    for (thing, least) in FEWEST {
        let count = met.count(thing);
        assert!(count >= least, "{thing}: {count}, expected {least}");
    }
}
