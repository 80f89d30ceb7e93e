//! A workload by one interpreter, so many steps of it and nothing else, for counting the
//! machine instructions of a step: `engine_steps WORKLOAD INTERPRETER STEPS`. Without
//! arguments the names of the workloads are printed, one in a line.

use differential::tuned::{Code, Machine};
use differential::workloads::{workloads, Workload};
use library::{Entry, Number, Pool, Run, Start, FIR_RUNS};
use reference::bounds::{Steps, BUFFER};
use reference::{Program, State};
use std::{env, process};

/// The run of a workload by the proved engine; the steps taken.
fn proved(workload: &Workload, budget: Steps) -> Steps {
    let program = library::Program::load(&workload.image[..]).expect("an accepted image");
    let entry = Entry {
        function: workload.function,
        version: 0,
    };
    let (words, mut buffer) = (&Workload::WORDS, [0; BUFFER]);
    let run = Run::begin(&program, Workload::LEVEL, entry, words, &buffer);
    let mut run = run.expect("the workload begins");
    run.budget(budget, &mut buffer).steps
}

/// What each run of a pool reserves: the first may have 36 vectors, so that those it has are counted.
const RESERVES: [u8; FIR_RUNS] = [32, 4, 4, 4, 4, 4, 4, 4];

/// The run by the proved engine in a pool; the steps taken.
fn pooled(workload: &Workload, budget: Steps) -> Steps {
    let program = library::Program::load(&workload.image[..]).expect("an accepted image");
    let entry = Entry {
        function: workload.function,
        version: 0,
    };
    let mut buffer = [0; BUFFER];
    let start = Start {
        level: Workload::LEVEL,
        entry,
        words: &Workload::WORDS,
    };
    let mut pool = Pool::new(RESERVES).expect("a pool");
    let first = Number::ALL[0];
    let started = pool.start(first, &program, start, &buffer);
    started.expect("the workload begins");
    let ran = pool.budget(first, budget, &mut buffer);
    ran.expect("a run").steps
}

/// The run by the tuned interpreter; the steps taken.
fn tuned(workload: &Workload, budget: Steps) -> Steps {
    let program = Program::accept(&workload.image).expect("an accepted image");
    let (level, function) = (Workload::LEVEL, workload.function);
    let begun = State::begin(&program, level, function, 0, &Workload::WORDS, &[0; BUFFER]);
    let code = Code::new(&program);
    let mut machine = Machine::new(&program, &code, &begun.expect("the workload begins"));
    machine.budget(budget).1
}

fn main() {
    let arguments: Vec<String> = env::args().skip(1).collect();
    let workloads = workloads();
    let [name, interpreter, steps] = &arguments[..] else {
        for workload in workloads {
            println!("{}", workload.name);
        }
        return;
    };
    let workload = workloads.iter().find(|workload| workload.name == name);
    let budget = steps.parse().ok();
    let taken = match (workload, &interpreter[..], budget) {
        (Some(workload), "proved", Some(budget)) => proved(workload, budget),
        (Some(workload), "pooled", Some(budget)) => pooled(workload, budget),
        (Some(workload), "tuned", Some(budget)) => tuned(workload, budget),
        _ => {
            eprintln!("usage: engine_steps WORKLOAD proved|pooled|tuned STEPS");
            process::exit(2);
        }
    };
    println!("{taken} steps");
}
