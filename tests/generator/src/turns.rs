//! What is done with a run whose start is kept: steps forward, and steps back in between.

use crate::random::Random;
use crate::run::{self, Event};
use reference::bounds::{Steps, BUFFER};

/// One thing done with a run whose start is kept.
#[derive(Clone, Copy, PartialEq, Eq, Debug)]
pub enum Turn {
    /// A step, a budget or a change of the image.
    Event(Event),
    /// A step back.
    Back,
}

/// The steps of a budget that brings most runs to their end.
const TO_THE_END: Steps = 3_000;

/// A list of turns: forward and back, around changes, to the end of most runs and back from
/// it, and on to the end again. Some begin where no step lies behind.
pub fn list(random: &mut Random) -> Vec<Turn> {
    let mut list = Vec::new();
    if random.one_in(5) {
        list.push(Turn::Back);
    }
    for _ in 0..1 + random.below(3) {
        forward(random, &mut list);
        back(random, &mut list);
    }
    if random.percent(45) {
        changes(random, &mut list);
    }
    to_the_end(random, &mut list);
    list
}

/// A few steps, one by one or under a budget, some lent too short a buffer.
fn forward(random: &mut Random, list: &mut Vec<Turn>) {
    if random.percent(50) {
        let steps = 1 + random.below(7);
        list.extend(vec![Turn::Event(Event::Step); steps]);
        return;
    }
    let (small, large) = (1 + random.below(6), random.below(90));
    let budget = random.weighted(&[(8, 0), (40, small), (50, large), (2, 700)]) as Steps;
    let places = run::places(random);
    list.push(Turn::Event(Event::Budget { budget, places }));
}

/// Steps back, several in a row.
fn back(random: &mut Random, list: &mut Vec<Turn>) {
    let steps = random.pick(&[0, 1, 1, 2, 3, 5, 9]);
    list.extend(vec![Turn::Back; steps]);
}

/// Changes of the image, taken or refused, with a step back right behind most of them, and
/// more behind a few steps.
fn changes(random: &mut Random, list: &mut Vec<Turn>) {
    for _ in 0..1 + random.below(3) {
        list.push(Turn::Event(run::change(random)));
        if random.percent(60) {
            list.push(Turn::Back);
        }
        forward(random, list);
        back(random, list);
    }
}

/// To the end of the run, back from it, and to its end again, with a change there in some.
fn to_the_end(random: &mut Random, list: &mut Vec<Turn>) {
    let end = Turn::Event(Event::Budget {
        budget: TO_THE_END,
        places: BUFFER,
    });
    list.push(end);
    if random.one_in(3) {
        list.push(Turn::Event(Event::Step));
    }
    list.push(Turn::Back);
    back(random, list);
    forward(random, list);
    list.extend([end, Turn::Back, Turn::Event(Event::Step)]);
    if random.percent(30) {
        let change = Turn::Event(run::change(random));
        list.extend([end, change, Turn::Back, Turn::Event(Event::Step)]);
    }
    list.push(Turn::Back);
}
