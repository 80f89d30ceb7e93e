//! States of any bytes, under an image that is loaded.

use crate::{Both, Given};
use definitions::store::{
    ACTIVATION, BYTES, CALLS, CELL_PLACES, DELAY, DELAYS, DEPTH, LENGTH, LENGTHS, NUMBERS, OWNER,
    STACK, STATUS, STRIDE,
};
use differential::snapshot::{arrays, give, untouched};
use generator::{accepted, update, Random, Tally, Update};
use library::{Entry, Run, State, FACTORY};

/// The cells of a call, registers and names.
const CELLS: usize = OWNER;

/// The bytes and the numbers of a state.
type Arrays = (Box<[u8; BYTES]>, Box<[i64; NUMBERS]>);

/// A state of these arrays.
fn state_of((bytes, numbers): &Arrays) -> State {
    let mut state = untouched();
    give(&mut state, bytes, numbers);
    state
}

/// A small number, sometimes any.
fn small(random: &mut Random, below: usize) -> u8 {
    match random.one_in(20) {
        true => random.byte(),
        false => random.below(below) as u8,
    }
}

/// Numbers of any bits.
fn noise(random: &mut Random) -> Arrays {
    let mut arrays = arrays(&untouched());
    arrays.0.fill_with(|| random.byte());
    arrays.1.fill_with(|| random.number() as i64);
    arrays
}

/// Numbers that lie near to those of runs of an image: few calls and activations, which
/// mostly point to what is there.
fn near(given: &Given, random: &mut Random) -> Arrays {
    let mut all = arrays(&State::blank());
    let (bytes, numbers) = (&mut all.0, &mut all.1);
    numbers.fill_with(|| random.between(-2, 9));
    for call in 0..4 {
        let first = STRIDE * call;
        for cell in first..first + CELLS {
            bytes[cell] = small(random, 4);
            bytes[CELL_PLACES + cell] = small(random, 6);
        }
        let other = (small(random, 3), small(random, 3));
        let (function, version) = match random.percent(80) {
            true => (given.entry.0 as u8, given.entry.1 as u8),
            false => other,
        };
        (bytes[first + OWNER], bytes[first + OWNER + 1]) = (function, version);
    }
    for number in 0..4 {
        let fields = [2, 4, 8, 3, 2, 12].map(|below| small(random, below));
        bytes[STACK + ACTIVATION * number..][..fields.len()].copy_from_slice(&fields);
    }
    for number in 0..6 {
        let fields = [3, 3, 2].map(|below| small(random, below));
        bytes[DELAYS + DELAY * number..][..fields.len()].copy_from_slice(&fields);
        bytes[LENGTHS + number] = small(random, 18);
    }
    (bytes[CALLS], bytes[DEPTH]) = (small(random, 5), small(random, 5));
    bytes[STATUS] = if random.one_in(12) { random.byte() } else { 0 };
    bytes[LENGTH] = small(random, 18);
    if random.one_in(30) {
        crowd(bytes, random);
    }
    all
}

/// Lets the cells of all calls hold vectors or promises, so that hardly a place is free.
fn crowd(bytes: &mut [u8; BYTES], random: &mut Random) {
    let (tag, from) = (random.pick(&[2, 3]), random.below(4));
    let cells = (0..32).flat_map(|call| STRIDE * call..STRIDE * call + CELLS);
    for (place, cell) in cells.skip(CELLS * from).enumerate() {
        (bytes[cell], bytes[CELL_PLACES + cell]) = (tag, (place % 65) as u8);
    }
    bytes[CALLS] = random.pick(&[31, 32, 33, 255]);
}

/// A byte of a state that a run mostly looks at.
fn looked_at(bytes: &[u8; BYTES], random: &mut Random) -> usize {
    let (calls, depth) = (bytes[CALLS].clamp(1, 32), bytes[DEPTH].clamp(1, 32));
    let (call, number) = (random.below(calls.into()), random.below(depth.into()));
    let cell = STRIDE * call + random.below(CELLS);
    let newest = usize::from(depth) - 1;
    match random.below(12) {
        0..=2 => cell,
        3..=4 => CELL_PLACES + cell,
        5 => STRIDE * call + OWNER + random.below(2),
        6 => STACK + ACTIVATION * number + random.below(6),
        7 => STACK + ACTIVATION * newest + random.below(6),
        8 => DELAYS + random.below(6) * DELAY + random.below(3),
        9 => LENGTHS + random.below(6),
        10 => CALLS + random.below(4),
        _ => random.below(BYTES),
    }
}

/// Numbers of a begun run after some steps, with a few changed.
fn changed(given: &Given, random: &mut Random) -> Option<Arrays> {
    let (function, version) = given.entry;
    let entry = Entry { function, version };
    let run = Run::begin(&given.program, FACTORY, entry, &given.words, &[0; 16]);
    let mut run = run.ok()?;
    run.budget(random.pick(&[0, 1, 2, 3, 5, 8, 13, 40, 200]), &mut [0; 16]);
    let mut all = arrays(run.state());
    for _ in 0..random.pick(&[1, 1, 1, 2, 3, 6]) {
        let (bytes, numbers) = (&mut all.0, &mut all.1);
        let at = looked_at(bytes, random);
        let near = bytes[at].wrapping_add(random.pick(&[1, 255, 2, 16]));
        let any = random.byte();
        bytes[at] = random.pick(&[near, near, 0, 1, 2, 3, any]);
        if random.one_in(5) {
            let number = random.below(NUMBERS);
            numbers[number] = random.number() as i64 >> random.below(64);
        }
    }
    Some(all)
}

/// A state of any bytes, and what it is; none where a run of the image does not begin.
pub fn any(given: &Given, random: &mut Random) -> Option<(&'static str, State)> {
    let sort = random.weighted(&[(12, "noise"), (30, "near"), (62, "changed")]);
    let arrays = match sort {
        "noise" => noise(random),
        "near" => near(given, random),
        _ => changed(given, random)?,
    };
    Some((sort, state_of(&arrays)))
}

/// Runs a state of any bytes on both sides.
pub fn run(given: &Given, random: &mut Random, met: &mut Tally<String>) {
    let Some((sort, state)) = any(given, random) else {
        return;
    };
    met.meet(format!("state: {sort}"));
    let origin = given.case(sort);
    let mut both = Both::new(&given.program, state, origin);
    if random.one_in(4) {
        let live = [(given.entry.0 as u8, given.entry.1 as u8)].into();
        let aim = Update::any(random);
        both.change(&update(aim, random.number(), &given.image, &live), met);
        both.change(&accepted(random.number() % 50), met);
    }
    both.follow(random, met);
}
