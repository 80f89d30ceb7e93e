//! What is done with a run: single steps, budgets and changes of its image.

use generator::{events, Event, Random, Update};
use reference::bounds::{Steps, BUFFER};

/// The steps of a budget that reaches the end of nearly every run.
const LARGE: Steps = 20_000;

/// One run in so many is brought to its end by the greatest budget.
const GREATEST: u64 = 4;

/// One list of events in so many keeps all of its single steps; the others
/// have at most so many events.
const WHOLE_LISTS: u64 = 3;
const MOST_EVENTS: usize = 25;

/// The events of a seed, and then a budget that brings the run to its end.
pub fn event_list(seed: u64) -> Vec<Event> {
    let mut list = events(seed);
    if !seed.is_multiple_of(WHOLE_LISTS) {
        list.truncate(MOST_EVENTS);
    }
    let last = if seed.is_multiple_of(GREATEST) {
        Steps::MAX
    } else {
        LARGE
    };
    list.push(Event::Budget {
        budget: last,
        places: Random::new(!seed).pick(&[BUFFER, BUFFER + 1, 3 * BUFFER, 100]),
    });
    list
}

/// A step, budgets and a change for a run that has ended: budgets of nothing and
/// of the most steps, those refused by 13 too.
pub fn events_after_the_end(seed: u64) -> [Event; 6] {
    let mut random = Random::new(seed);
    let aim = Update::any(&mut random);
    let change = Event::Change { aim, seed };
    let mut short = |budget| Event::Budget {
        budget,
        places: random.below(BUFFER),
    };
    let long = |budget| Event::Budget {
        budget,
        places: BUFFER + 3,
    };
    [
        Event::Step,
        short(0),
        long(0),
        short(Steps::MAX),
        change,
        long(Steps::MAX),
    ]
}

/// A word for the size of a budget.
pub fn size(budget: Steps) -> &'static str {
    match budget {
        0 => "empty",
        1..1000 => "small",
        1000..=LARGE => "large",
        _ => "greatest",
    }
}
