//! Writes the scripts of which `tests/interface/replay.c` records the cases of the conformance kit, to standard output:
//! `recorded N`, so many of the kinds that are most. The same N gives the same bytes.

mod ends;
mod images;
mod pools;
mod runs;
mod script;

use script::{number, Kind, Script, MARK};
use std::io::{self, BufWriter, Write};
use std::{env, process};

/// What writes the events of the case of a seed.
type Writer = fn(u64, &mut Script);

/// The kinds of cases that seeds decide, and how many of them stand for one of N, in sixteenths.
const DRAWN: [(&str, Writer, u64); 11] = [
    ("questions", images::questions, 16),
    ("changed image", images::changed, 8),
    ("move", images::moves, 12),
    ("join", images::joins, 8),
    ("mend", images::mends, 12),
    ("bounds", images::bounds, 6),
    ("run", runs::plain, 16),
    ("steps back", runs::trailed, 16),
    ("run in a pool", runs::pooled, 12),
    ("damaged state", runs::damaged, 12),
    ("pool", pools::block, 4),
];

/// The sixteenths of a whole.
const WHOLE: u64 = 16;

/// Room for the words of each question and each answer, as `fir.h` has it.
const WORDS: [(Kind, usize); 2] = [(Kind::QuestionText, 128), (Kind::AnswerText, 64)];

/// How many questions and answers there are, at most.
const ASKED: u8 = 25;

/// Numbers of the library, and words of all questions and answers, and of numbers that are none.
fn words(script: &mut Script) {
    for kind in [Kind::Version, Kind::StateSize, Kind::StateAlignment] {
        script.event(kind, &[]);
    }
    for (kind, room) in WORDS {
        for asked in (0..ASKED).chain([31, 127, 128, 255]) {
            script.with_bytes(kind, &[asked], &[room]);
        }
        // Each length, and one less, is among these.
        for asked in 0..ASKED {
            for places in 0..room {
                script.with_bytes(kind, &[asked], &[places]);
            }
        }
    }
    for length in [0, 1, 5, 6, 1_999, 32_767, 32_768, 32_769, usize::MAX] {
        script.event(Kind::TableSize, &[length]);
    }
}

/// All cases.
fn cases(count: u64) -> Vec<Script> {
    let mut cases = vec![Script::new("numbers and words")];
    words(&mut cases[0]);
    for (operation, name) in (0..).zip(ends::OPERATIONS) {
        for first in ends::OPERANDS {
            let mut script = Script::new(&format!("{name} of {first}"));
            ends::operation(operation, first, &mut script);
            cases.push(script);
        }
    }
    for (name, write, share) in DRAWN {
        for seed in 0..count * share / WHOLE {
            let mut script = Script::new(&format!("{name} {seed}"));
            write(seed, &mut script);
            cases.push(script);
        }
    }
    cases
}

fn main() -> io::Result<()> {
    let count = env::args().nth(1).and_then(|count| count.parse().ok());
    let Some(count) = count else {
        eprintln!("usage: recorded N");
        process::exit(2);
    };
    let mut output = BufWriter::new(io::stdout().lock());
    let cases = cases(count);
    output.write_all(MARK)?;
    for case in &cases {
        output.write_all(&case.in_file())?;
    }
    // Events are counted by whoever records them.
    let mut end = Vec::new();
    for counted in [0, cases.len() as u64, 0] {
        number(&mut end, counted);
    }
    output.write_all(&end)?;
    output.flush()
}
