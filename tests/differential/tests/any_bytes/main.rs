//! States, tables, trails and pools of any bytes: noise, bytes that lie near to those of runs, and
//! real ones with single bytes changed. Every answer, every place of the buffer and the whole
//! state after each step, forward or back, and budget are those of the definitions, and what
//! changes nothing changes no byte.

mod both;
mod pools;
mod states;
mod tables;
mod trails;

use both::Both;
use generator::{accepted, entry, words, Random, Tally};
use reference::Program;
use std::thread;

/// How many images are generated for states and for tables, and how often each is used.
const IMAGES: u64 = 12_000;
const EACH: usize = 10;

/// The fewest cases of each.
const FEWEST: usize = 100_000;

/// One case in so many is a pool too, and the fewest cases of pools.
const EACH_POOL: usize = 3;
const FEWEST_POOLS: usize = 30_000;

/// The kinds of instructions, by their first word.
const INSTRUCTIONS: [&str; 20] = [
    "Lit", "Move", "Use", "Dup", "Vec", "Len", "Get", "Set", "Arith", "Select", "Cast", "Named",
    "Store", "Prom", "Force", "Peek", "Poke", "Call", "Dispatch", "Skip",
];

/// The bytes of a worker's stack: states of the definitions stand on it.
const STACK: usize = 16 << 20;

/// An accepted image with an entry, its words and its program.
pub struct Given {
    /// Its seed, and the number of the case that is tried.
    seed: u64,
    case: usize,
    /// The image.
    pub image: Vec<u8>,
    /// A version that a run may begin at.
    pub entry: (usize, usize),
    /// Its argument words.
    pub words: Vec<i64>,
    /// The program that is loaded.
    pub program: library::Program,
}

impl Given {
    /// The image of a seed, if it has an entry.
    fn of(seed: u64) -> Option<Given> {
        let image = accepted(seed);
        let checked = Program::accept(&image).expect("an accepted image");
        let entry = entry(seed, &checked)?;
        let words = words(seed, &checked, entry);
        let program = library::Program::load(&image[..]).expect("an accepted image");
        Some(Given {
            seed,
            case: 0,
            image,
            entry,
            words,
            program,
        })
    }

    /// The name of a case of this sort.
    pub fn case(&self, sort: &str) -> String {
        format!("seed {}, case {}, {sort}", self.seed, self.case)
    }
}

/// Does something with the image of each seed, so many times, on all cores; what was met.
fn in_parallel(work: impl Fn(&Given, &mut Random, &mut Tally<String>) + Sync) -> Tally<String> {
    let workers = thread::available_parallelism().map_or(1, usize::from);
    let work = &work;
    let share = |worker: usize| {
        move || {
            let mut met = Tally::default();
            for seed in (worker as u64..IMAGES).step_by(workers) {
                let mut random = Random::new(seed ^ 0x00AB_CDEF_0000);
                let Some(mut given) = Given::of(seed) else {
                    continue;
                };
                for case in 0..EACH {
                    given.case = case;
                    work(&given, &mut random, &mut met);
                }
            }
            met
        }
    };
    let mut met = Tally::default();
    thread::scope(|scope| {
        let start = |worker| {
            let builder = thread::Builder::new().stack_size(STACK);
            let started = builder.spawn_scoped(scope, share(worker));
            started.expect("a worker starts")
        };
        let shares: Vec<_> = (0..workers).map(start).collect();
        for worker in shares {
            met.add(worker.join().expect("a worker found no difference"));
        }
    });
    met
}

/// Asserts that a thing is met at least so often.
#[track_caller]
fn assert_count(met: &Tally<String>, thing: &str, least: usize) {
    let count = met.count(&thing.to_string());
    assert!(count >= least, "{thing}: {count}, expected {least}");
}

/// The fewest times that each instruction is executed, and that it is stuck.
const FEWEST_EXECUTED: usize = 150;
const FEWEST_STUCK: usize = 20;

/// Asserts that each instruction is executed often enough, and is stuck, but for those that
/// never are.
#[track_caller]
fn assert_instructions(met: &Tally<String>, never_stuck: &[&str]) {
    for instruction in INSTRUCTIONS {
        assert_count(met, &format!("{instruction}: goes on"), FEWEST_EXECUTED);
        let stuck = format!("{instruction}: stuck");
        match never_stuck.contains(&instruction) {
            true => assert_eq!(met.count(&stuck), 0, "{stuck}"),
            false => assert_count(met, &stuck, FEWEST_STUCK),
        }
    }
}

#[test]
fn states_of_any_bytes_run_by_the_definitions() {
    let met = in_parallel(states::run);
    println!("{met}");
    assert_count(&met, "cases", FEWEST);
    for (sort, fewest) in [("noise", 10_000), ("near", 30_000), ("changed", 60_000)] {
        assert_count(&met, &format!("state: {sort}"), fewest);
    }
    // Under an accepted image no state keeps a literal and a new promise from their register.
    assert_instructions(&met, &["Lit", "Prom"]);
    for end in ["Integer", "Vector", "Undef", "Deep", "Promises", "Vectors"] {
        assert_count(&met, &format!("ended: {end}"), 200);
    }
    for thing in ["block end: goes on", "block end: stuck", "nowhere: stuck"] {
        assert_count(&met, thing, 2_000);
    }
    assert_count(&met, "change: taken", 500);
    assert_count(&met, "change: refused by 15", 2_000);
    assert_count(&met, "budget: refused by 13", 2_000);
}

#[test]
fn tables_of_any_bytes_run_by_the_definitions() {
    let met = in_parallel(tables::run);
    println!("{met}");
    assert_count(&met, "cases", FEWEST);
    let sorts = [
        "noise",
        "changed",
        "cut",
        "longer",
        "another image",
        "a changed image",
    ];
    for sort in sorts {
        assert_count(&met, &format!("table: {sort}"), 8_000);
    }
    assert_instructions(&met, &[]);
    for question in [11, 19, 12, 13] {
        assert_count(&met, &format!("begin: refused by {question}"), 500);
    }
    assert_count(&met, "begin: begun", 30_000);
    for end in ["Integer", "Vector", "Undef"] {
        assert_count(&met, &format!("ended: {end}"), 1_000);
    }
    for thing in ["block end: goes on", "block end: stuck", "nowhere: stuck"] {
        assert_count(&met, thing, 2_000);
    }
}

#[test]
fn trails_of_any_bytes_go_back_by_the_definitions() {
    let met = in_parallel(trails::run);
    println!("{met}");
    assert_count(&met, "cases", FEWEST);
    for (sort, fewest) in [("noise", 10_000), ("near", 30_000), ("changed", 60_000)] {
        assert_count(&met, &format!("start: {sort}"), fewest);
    }
    for (thing, fewest) in trails::FEWEST {
        assert_count(&met, thing, fewest);
    }
}

#[test]
fn pools_of_any_bytes_are_asked_by_the_definitions() {
    let met = in_parallel(|given, random, met| {
        if given.case.is_multiple_of(EACH_POOL) {
            pools::run(given, random, met);
        }
    });
    println!("{met}");
    assert_count(&met, "cases", FEWEST_POOLS);
    for (sort, fewest) in [("noise", 3_000), ("near", 8_000), ("changed", 15_000)] {
        assert_count(&met, &format!("state: {sort}"), fewest);
    }
    for (thing, fewest) in pools::FEWEST {
        assert_count(&met, thing, fewest);
    }
}
