//! A pool and its eight runs on both sides: what is asked is asked of both, and what is heard
//! compared.

mod asks;

use crate::alone::Alone;
use differential::difference::difference;
use differential::engine::{nothing_begun, refusal};
use differential::snapshot::{state_of, untouched};
use generator::{Ask, Asked, Event, Tally};
use library::{Run, State, Store, FIR_PLACES, FIR_STEPS};
use reference::bounds::Steps;
use reference::pool::{Start, NOT_IN_POOL, RUNS};
use reference::{End, Pool, Refusal, Status};
use std::fmt::Debug;

/// Reserves that sum above 64: by one, by sums that a byte does not hold, and by one number.
const OVER_RESERVED: [[u8; RUNS]; 5] = [
    [9, 8, 8, 8, 8, 8, 8, 8],
    [32; RUNS],
    [255; RUNS],
    [0, 0, 0, 0, 0, 0, 0, 65],
    [64, 0, 0, 192, 0, 0, 0, 64],
];

/// One ask in so many is asked with such a pool too.
const EACH_OVER_RESERVED: usize = 4;

/// A pool on both sides.
pub struct House {
    reference: Pool,
    store: Store,
    runs: [Option<Run<'static>>; RUNS],
    alone: [Alone; RUNS],
    /// How much was asked.
    asks: usize,
    origin: String,
}

/// What a pool and the state of a number are like before something is asked.
struct Before {
    store: Store,
    state: State,
    /// Had the number a run?
    had: bool,
    /// Did it go on?
    live: bool,
}

/// A start that is asked for.
struct Starting<'a> {
    start: &'a Start,
    places: usize,
    budget: Option<Steps>,
    /// Is it over a live run?
    over: bool,
}

impl House {
    /// Makes a pool on both sides; none where its reserves are refused.
    #[track_caller]
    pub fn open(reserves: [u8; RUNS], origin: String, met: &mut Tally<String>) -> Option<House> {
        let noise = Store {
            reserves: [0xA5; RUNS],
            has: [0x5A; RUNS],
        };
        let mut store = noise;
        let made = store.make_anew(reserves).map_err(refusal);
        let reference = match Pool::make(reserves, &origin) {
            Ok(reference) => reference,
            Err(no) => {
                assert_eq!(made, Err(no), "{origin}: a pool that is not made");
                assert_eq!(store, noise, "{origin}: 21 leaves the pool");
                met.meet("21 by the reserves of a pool that is made".to_string());
                return None;
            }
        };
        assert_eq!(made, Ok(()), "{origin}: a pool that is made");
        met.meet("made".to_string());
        let house = House {
            reference,
            store,
            runs: [const { None }; RUNS],
            alone: reserves.map(Alone::new),
            asks: 0,
            origin,
        };
        house.assert_same_pool(met);
        Some(house)
    }

    /// Where this is, for what fails.
    fn place(&self, number: usize) -> String {
        format!("{}, ask {} under {number}", self.origin, self.asks)
    }

    /// Asserts that both heard the same.
    #[track_caller]
    fn assert_same<T: PartialEq + Debug>(&self, number: usize, expected: T, found: T) {
        let place = self.place(number);
        assert_eq!(
            expected, found,
            "{place}: the reference, and the proved engine"
        );
    }

    /// Asserts what the pool says of each number, and of all together.
    #[track_caller]
    fn assert_same_pool(&self, met: &mut Tally<String>) {
        let (mut in_use, mut kept) = (0, 0);
        let usage = self.reference.usage();
        for number in 0..RUNS {
            let (has, reserve) = (usage.has[number], usage.reserves[number]);
            let may_have = usage.may_have(number);
            let found = (self.store.has[number], self.store.reserves[number]);
            let found = (usize::from(found.0), usize::from(found.1));
            self.assert_same(number, (has, reserve), found);
            self.assert_same(number, may_have, self.store.may_have(number));
            assert!(has <= may_have, "{}", self.place(number));
            assert!(reserve <= may_have, "{}", self.place(number));
            assert!(may_have <= FIR_PLACES, "{}", self.place(number));
            in_use += has;
            kept += has.max(reserve);
            if has > reserve {
                met.meet("a run above its reserve".to_string());
            }
        }
        assert!(
            in_use <= FIR_PLACES && kept <= FIR_PLACES,
            "{}",
            self.origin
        );
        if in_use == FIR_PLACES {
            met.meet("64 in use".to_string());
        }
    }

    /// Asserts that the run of a number is in the same state on both sides.
    #[track_caller]
    fn assert_same_state(&self, number: usize) {
        let (Some(lodger), Some(run)) = (self.reference.get(number), self.run_of(number)) else {
            let none = self.reference.get(number).is_none() && self.run_of(number).is_none();
            assert!(none, "{}: a run on both sides", self.place(number));
            return;
        };
        let expected = lodger.run.state().clone().tidied();
        let different = match state_of(run.state()) {
            Ok(found) => difference(&expected, &found),
            Err(error) => Some(error),
        };
        self.assert_same(number, None, different);
        self.assert_same(number, &lodger.image[..], run.image());
    }

    /// The run of a number on the proved side.
    fn run_of(&self, number: usize) -> Option<&Run<'static>> {
        self.runs.get(number)?.as_ref()
    }

    /// Asks something of both sides, and compares.
    #[track_caller]
    pub fn serve(&mut self, asked: Asked, met: &mut Tally<String>) {
        self.asks += 1;
        let Asked { number, ask } = asked;
        if self.asks.is_multiple_of(EACH_OVER_RESERVED) {
            self.ask_over_reserved(number, &ask, met);
        }
        let (ended, mut run) = (self.ended(number), self.lend(number));
        let before = self.before(number, &run);
        let refused = self.ask(number, &mut run, &ask, &before, met);
        if let Some(no) = refused {
            self.assert_left(number, &before, no, &run);
            met.meet(match no {
                NOT_IN_POOL => "21 by a number".to_string(),
                no => format!("refused by {}", no.number),
            });
        }
        let started = matches!(ask, Ask::Start { .. }) && refused.is_none();
        if before.had || started {
            self.runs[number] = Some(run);
        }
        self.assert_same_state(number);
        self.assert_same_pool(met);
        self.meet_end(number, ended && !started, met);
        if number < RUNS && self.reference.reserve(number) == FIR_PLACES {
            met.meet("under the reserve 64".to_string());
        }
    }

    /// Asks something of both sides, with the run of the number; what refuses it.
    #[track_caller]
    fn ask(
        &mut self,
        number: usize,
        run: &mut Run<'static>,
        ask: &Ask,
        before: &Before,
        met: &mut Tally<String>,
    ) -> Option<Refusal> {
        let refused = match *ask {
            Ask::Start {
                ref start,
                places,
                budget,
            } => {
                let over = before.live;
                let starting = Starting {
                    start,
                    places,
                    budget,
                    over,
                };
                return self.start(number, run, starting, met).err();
            }
            Ask::Back => return Some(self.back(number)),
            Ask::Event(Event::Step) => self.step(number, run),
            Ask::Event(Event::Budget { budget, places }) => {
                self.budget(number, run, budget, places)
            }
            Ask::Event(Event::Change { aim, seed }) => {
                let changed = self.change(number, run, aim, seed);
                if changed == Some(Ok(())) {
                    met.meet("a change taken".to_string());
                }
                changed
            }
        };
        if refused.is_none() {
            met.meet("no run".to_string());
        }
        refused?.err()
    }

    /// The run of a number, to be lent; one that nothing was written to, where it has none.
    fn lend(&mut self, number: usize) -> Run<'static> {
        let place = self.runs.get_mut(number);
        place.and_then(Option::take).unwrap_or_else(nothing_begun)
    }

    /// The pool now, and the run that is lent.
    fn before(&self, number: usize, run: &Run) -> Before {
        let had = self.reference.get(number).is_some();
        Before {
            store: self.store,
            state: run.state().clone(),
            had,
            live: had && run.state().status == FIR_STEPS,
        }
    }

    /// Has the run of a number ended, if it has one?
    fn ended(&self, number: usize) -> bool {
        let lodger = self.reference.get(number);
        lodger.is_some_and(|lodger| lodger.run.ended())
    }

    /// Asserts that a refusal leaves pool and state.
    #[track_caller]
    fn assert_left(&self, number: usize, before: &Before, no: Refusal, run: &Run) {
        let place = self.place(number);
        assert_eq!(before.store, self.store, "{place}: {no:?} leaves the pool");
        let left = before.state == *run.state();
        assert!(left, "{place}: {no:?} leaves the state");
        if !before.had {
            let left = *run.state() == untouched();
            assert!(left, "{place}: {no:?} begins nothing");
        }
    }

    /// Meets an end that has come, and how many vectors the run had at VECTORS.
    #[track_caller]
    fn meet_end(&self, number: usize, ended: bool, met: &mut Tally<String>) {
        let Some(lodger) = self.reference.get(number).filter(|_| !ended) else {
            return;
        };
        let state = lodger.run.state();
        let Status::Ended(end) = state.status else {
            return;
        };
        let name = format!("{end:?}");
        let name: String = name.chars().take_while(|c| c.is_alphabetic()).collect();
        met.meet(format!("ended: {name}"));
        if end != End::Vectors || state.frames.is_empty() {
            return;
        }
        let had = state.counted_vectors().len();
        let usage = self.reference.usage();
        let may_have = usage.may_have(number);
        assert_eq!(had, may_have, "{}: at VECTORS", self.place(number));
        let others: usize = usage.has.iter().sum();
        if had < FIR_PLACES {
            met.meet("VECTORS with fewer than 64".to_string());
        }
        met.meet(match had + others {
            FIR_PLACES => "VECTORS with none left".to_string(),
            _ => "VECTORS for others' unused reserves".to_string(),
        });
        let above = had > self.reference.reserve(number);
        met.meet(format!(
            "VECTORS {} the reserve",
            if above { "above" } else { "at" }
        ));
        if self.alone[number].apart() {
            met.meet("VECTORS in the pool, and not without one".to_string());
        }
    }
}
