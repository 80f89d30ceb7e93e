//! Lists with steps back: under the monitor of demand 3, each step back gives the state of a
//! run from the start with one step less, and all that they are made for is met.

use crate::watched;
use generator::{accepted, begun, turns, update, Event, Tally, Turn};
use reference::bounds::{Steps, BUFFER};
use reference::{Program, State, Status, Trail};

/// How many programs are run.
const PROGRAMS: u64 = 1500;

/// The fewest steps back that are taken and refused, by how the run stood before.
const FEWEST: [(&str, usize); 12] = [
    ("taken, Running", 3_000),
    ("taken, Running, after a change", 800),
    ("taken, Integer", 800),
    ("taken, Vector", 400),
    ("taken, Undef", 250),
    ("taken, Deep", 80),
    ("taken, Vectors", 10),
    ("taken, Promises", 10),
    ("refused, Running", 300),
    ("refused, Running, after a change", 200),
    ("refused, Integer, after a change", 50),
    ("refused, Undef, after a change", 10),
];

/// A run whose start is kept, with what a step back is worked out from beside it.
struct Visit {
    image: Vec<u8>,
    trail: Trail,
    /// The program and the state at the start, or at the last change that was taken.
    since: (Program, State),
    /// Was a change taken?
    changed: bool,
}

impl Visit {
    /// Does an event.
    fn act(&mut self, event: Event) {
        match event {
            Event::Step => drop(self.trail.step()),
            Event::Budget { budget, places } => {
                self.trail.budget(budget, &mut vec![0; places]);
            }
            Event::Change { aim, seed } => {
                let state = self.trail.run().state().clone();
                let new = update(aim, seed, &self.image, &state.live_versions());
                if self.trail.change(&self.image, &new).is_ok() {
                    let program = Program::accept(&new).expect("an accepted image");
                    (self.since, self.image) = ((program, state), new);
                    self.changed = true;
                }
            }
        }
    }

    /// A step back, worked out once more by a budget from the start; what is met.
    fn back(&mut self, origin: &str) -> String {
        let behind = self.trail.behind().expect("fewer than too many steps");
        let end = match self.trail.run().state().status {
            Status::Running => "Running".to_string(),
            Status::Ended(end) => format!("{end:?}"),
        };
        let end: String = end.chars().take_while(|c| c.is_alphabetic()).collect();
        let changed = if self.changed { ", after a change" } else { "" };
        if self.trail.back().is_err() {
            assert_eq!(behind, 0, "{origin}: refused");
            return format!("refused, {end}{changed}");
        }
        let (program, start) = &self.since;
        let less = (behind - 1) as Steps;
        let (expected, _, taken) = start.clone().budget(program, less, &mut [0; BUFFER]);
        assert_eq!(taken, less, "{origin}: all of them are taken");
        assert_eq!(*self.trail.run().state(), expected, "{origin}");
        format!("taken, {end}{changed}")
    }
}

#[test]
fn a_step_back_is_a_run_of_one_step_less() {
    let mut met = Tally::default();
    for seed in 0..PROGRAMS {
        let image = accepted(seed);
        let program = Program::accept(&image).expect("an accepted image");
        let Some(state) = begun(seed, &program) else {
            continue;
        };
        let origin = format!("seed {seed}");
        let mut visit = Visit {
            image,
            trail: Trail::start(watched(&program, state.clone(), &origin)),
            since: (program, state),
            changed: false,
        };
        for turn in turns(seed) {
            match turn {
                Turn::Event(event) => visit.act(event),
                Turn::Back => met.meet(visit.back(&origin)),
            }
        }
    }
    println!("{met}");
    for (thing, least) in FEWEST {
        let count = met.count(thing);
        assert!(count >= least, "{thing}: {count}");
    }
}
