//! Runs: by steps, budgets and changes of the image; with steps back; in a pool beside others; and from states of any bytes.

use crate::images::{short, table, TELLING};
use crate::script::{Kind, Script, Start};
use generator::{
    accepted, any, entry, events, level, steps_and_budgets, turns, update, words, Event, Live,
    Random, Turn,
};
use reference::bounds::{BUFFER, REGISTERS, VECTORS};
use reference::pool::RUNS;
use reference::Program;

/// One run in so many is of an image that may be refused.
const ANY: u64 = 8;

/// One start in so many is tried with something wrong first.
const WRONG: usize = 3;

/// After one act in so many the newest call is looked at.
const LOOKED: usize = 5;

/// An image, and where its run begins.
struct Plan {
    image: Vec<u8>,
    start: Start,
    accepted: bool,
}

fn plan(seed: u64) -> Plan {
    let image = match seed % ANY {
        0 => short(seed, any, Vec::len),
        _ => short(seed, accepted, Vec::len),
    };
    let program = Program::accept(&image).ok();
    let started = program.as_ref().and_then(|program| {
        let entry = entry(seed, program)?;
        let (level, words) = (level(seed, program, entry), words(seed, program, entry));
        Some(Start {
            level,
            entry,
            words,
        })
    });
    let elsewhere = Start {
        level: 2,
        entry: (0, 0),
        words: vec![-1, 7],
    };
    Plan {
        image,
        start: started.unwrap_or(elsewhere),
        accepted: program.is_some(),
    }
}

/// How a step, a budget and a change of the image are asked.
pub struct Way {
    step: Kind,
    budget: Kind,
    change: Kind,
}

const PLAIN: Way = Way {
    step: Kind::Step,
    budget: Kind::Budget,
    change: Kind::Change,
};
const TRAILED: Way = Way {
    step: Kind::TrailStep,
    budget: Kind::TrailBudget,
    change: Kind::TrailChange,
};
pub const POOLED: Way = Way {
    step: Kind::PoolStep,
    budget: Kind::PoolBudget,
    change: Kind::PoolChange,
};

impl Way {
    /// One thing done with a run, for whose image and live calls changes are made.
    pub fn act(&self, script: &mut Script, run: usize, event: Event, image: &[u8], live: &Live) {
        match event {
            Event::Step => script.event(self.step, &[run]),
            Event::Budget { budget, places } => {
                script.event(self.budget, &[run, budget as usize, places]);
            }
            Event::Change { aim, seed } => {
                let new = update(aim, seed, image, live);
                script.image(&new);
                script.event(Kind::Load, &[table(&new)]);
                script.event(self.change, &[run]);
            }
        }
    }

    /// Each of a list, and looks in between.
    fn acts(
        &self,
        script: &mut Script,
        run: usize,
        plan: &Plan,
        list: &[Turn],
        random: &mut Random,
    ) {
        let (function, version) = plan.start.entry;
        let live = Live::from([(function as u8, version as u8)]);
        for &turn in list {
            match turn {
                Turn::Event(Event::Change { .. }) if !plan.accepted => continue,
                Turn::Event(event) => self.act(script, run, event, &plan.image, &live),
                Turn::Back => script.event(Kind::TrailBack, &[run]),
            }
            if random.one_in(LOOKED) {
                look(script, run, random);
            }
        }
    }
}

/// What a service screen asks of a run.
pub fn look(script: &mut Script, run: usize, random: &mut Random) {
    let few = random.below(REGISTERS);
    let rows = random.pick(&[REGISTERS, REGISTERS, REGISTERS + 1, few]);
    script.event(Kind::Watch, &[run, rows]);
    let call = random.below(4);
    let call = random.pick(&[call, call, call, 31, 32, usize::MAX]);
    script.event(Kind::Look, &[run, call]);
    script.event(Kind::Where, &[run]);
}

/// A start, sometimes with something wrong before it.
fn begin(script: &mut Script, kind: Kind, run: usize, plan: &Plan, random: &mut Random) {
    script.image(&plan.image);
    script.event(Kind::Load, &[table(&plan.image)]);
    let mut wrong = plan.start.clone();
    match random.below(4 * WRONG) {
        0 => wrong.entry.1 = 3,
        1 => wrong.level = 0,
        2 => wrong.words.push(1 << 32),
        _ => {}
    }
    if random.one_in(WRONG) {
        let places = random.pick(&[BUFFER, BUFFER - 1, 0]);
        script.start(kind, run, &wrong, &[places]);
    }
    script.start(kind, run, &plan.start, &[BUFFER]);
}

/// A run by steps, budgets and changes, and once more from its start.
pub fn plain(seed: u64, script: &mut Script) {
    let (plan, mut random) = (plan(seed), Random::new(!seed));
    begin(script, Kind::Begin, 0, &plan, &mut random);
    let list: Vec<Turn> = events(seed).into_iter().map(Turn::Event).collect();
    PLAIN.acts(script, 0, &plan, &list, &mut random);
    let budget = random.pick(&[0, 1, 20, 500, 20_000]);
    script.start(Kind::Run, 1, &plan.start, &[budget, BUFFER]);
    look(script, 1, &mut random);
}

/// A run that steps back.
pub fn trailed(seed: u64, script: &mut Script) {
    let (plan, mut random) = (plan(seed), Random::new(!seed));
    begin(script, Kind::Begin, 0, &plan, &mut random);
    script.event(Kind::TrailStart, &[0]);
    TRAILED.acts(script, 0, &plan, &turns(seed), &mut random);
}

/// A run under a number of a pool, beside one that has some vectors.
pub fn pooled(seed: u64, script: &mut Script) {
    let (plan, mut random) = (plan(seed), Random::new(!seed));
    let number = random.below(RUNS);
    script.with_bytes(Kind::PoolMake, &[random.below(9) as u8; RUNS], &[]);
    script.in_pool(RUNS + (number + 1) % RUNS, random.below(VECTORS) as u8);
    begin(script, Kind::PoolBegin, number, &plan, &mut random);
    let list: Vec<Turn> = events(seed).into_iter().map(Turn::Event).collect();
    POOLED.acts(script, number, &plan, &list, &mut random);
    let budget = random.pick(&[0, 1, 20, 500]);
    script.start(Kind::PoolRun, number, &plan.start, &[budget, BUFFER]);
    script.event(Kind::PoolBack, &[number]);
}

/// Where the parts of a state stand whose damage a run meets, and how many of their bytes.
const PARTS: [(usize, usize); 8] = [
    (0, 128),     // numbers
    (8_192, 256), // items
    (17_032, 96), // tags
    (18_056, 96), // places
    (19_080, 32), // stack
    (19_336, 16), // promises
    (19_592, 8),  // lengths
    (19_656, 4),  // calls, depth, status, length
];

/// Where `calls`, `depth` and `status` stand.
const COUNTS: usize = 19_656;

/// How often a state is damaged.
const DAMAGED: usize = 12;

/// Damages a byte of a state, which most often goes on then.
fn damage(script: &mut Script, random: &mut Random) {
    let (from, bytes) = random.pick(&PARTS);
    let (any, telling) = (random.byte(), random.pick(&TELLING));
    let byte = random.pick(&[0, 1, 2, 3, any, telling]);
    script.in_state(0, from + random.below(bytes), byte);
    if random.one_in(2) {
        script.in_state(0, COUNTS + 2, 0);
    }
}

/// A run that goes on from states some bytes of which are damaged, in part with its start kept.
pub fn damaged(seed: u64, script: &mut Script) {
    let (plan, mut random) = (plan(seed | 1), Random::new(!seed));
    begin(script, Kind::Begin, 0, &plan, &mut random);
    script.event(Kind::Budget, &[0, random.below(12), BUFFER]);
    for _ in 0..DAMAGED {
        damage(script, &mut random);
        match random.below(4) {
            0 => script.event(Kind::Budget, &[0, 1 + random.below(5), BUFFER]),
            1 => look(script, 0, &mut random),
            _ => script.event(Kind::Step, &[0]),
        }
    }
    script.event(Kind::TrailStart, &[0]);
    let list = steps_and_budgets(seed).into_iter().take(6);
    let mut list: Vec<Turn> = list.map(Turn::Event).collect();
    list.extend([Turn::Event(Event::Step), Turn::Back, Turn::Back]);
    TRAILED.acts(script, 0, &plan, &list, &mut random);
}
