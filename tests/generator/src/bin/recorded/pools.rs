//! Eight runs in a pool.

use crate::images::table;
use crate::runs::{look, POOLED};
use crate::script::{Kind, Script, Start};
use generator::{stairwells, Ask, Live, Random};
use reference::bounds::Steps;
use reference::pool::{self, RUNS};

/// After one ask in so many the newest call of the run is looked at.
const LOOKED: usize = 20;

/// A start under a number, with so many steps or alone.
fn start(
    script: &mut Script,
    number: usize,
    start: &pool::Start,
    places: usize,
    budget: Option<Steps>,
) {
    let begun = Start {
        level: start.level,
        entry: start.entry,
        words: start.words.clone(),
    };
    script.image(&start.image);
    script.event(Kind::Load, &[table(&start.image)]);
    match budget {
        None => script.start(Kind::PoolBegin, number, &begun, &[places]),
        Some(budget) => script.start(Kind::PoolRun, number, &begun, &[budget as usize, places]),
    }
}

/// A block of stairwells. Changes are made for the image that was started last under a number.
pub fn block(seed: u64, script: &mut Script) {
    let block = stairwells(seed);
    let mut random = Random::new(!seed);
    let mut started: Vec<(Vec<u8>, Live)> = vec![Default::default(); RUNS];
    script.with_bytes(Kind::PoolMake, &block.reserves, &[]);
    for asked in block.asks {
        let number = asked.number;
        let run = number.min(RUNS - 1);
        match asked.ask {
            Ask::Start {
                start: begun,
                places,
                budget,
            } => {
                start(script, number, &begun, places, budget);
                let (function, version) = begun.entry;
                started[run] = (begun.image, Live::from([(function as u8, version as u8)]));
            }
            Ask::Event(event) => {
                let (image, live) = &started[run];
                POOLED.act(script, number, event, image, live);
            }
            Ask::Back => script.event(Kind::PoolBack, &[number]),
        }
        if random.one_in(LOOKED) {
            look(script, run, &mut random);
        }
    }
}
