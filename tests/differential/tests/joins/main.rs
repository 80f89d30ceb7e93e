//! Two images joined by the proved library and by the reference: answers, every place
//! of the lent buffer and beside it, what stands where in the joined image, and the
//! runs of both images alone beside those of the joined one.

mod parts;
mod runs;

use differential::engine;
use generator::{to_join, to_join_with, Join, Tally};
use reference::bounds::{FUNCTIONS, MAX_IMAGE, VERSIONS};
use reference::joins::{Bound, Sizes};
use reference::questions::QUESTIONS;
use reference::{join_accepted, Program, Refusal, Unjoined, Verdict};
use std::thread;

/// How many pairs are generated, and how many threes.
const PAIRS: u64 = 52_000;
const THREES: u64 = 4_000;

/// The fewest refusals by each image, and by each bound alone.
const FEWEST: usize = 500;

/// Places on either side of a lent buffer.
const MARGIN: usize = 16;

/// A buffer with its margins, no two neighbouring places alike.
fn untouched(places: usize) -> Vec<u8> {
    let all = 0..places + 2 * MARGIN;
    all.map(|place| (place % 251) as u8).collect()
}

/// Two images with what the reference makes of each.
struct Pair<'g> {
    given: &'g Join,
    first: Result<Program, Refusal>,
    second: Result<Program, Refusal>,
}

impl<'g> Pair<'g> {
    /// The pair of two images.
    fn of(given: &'g Join) -> Pair<'g> {
        Pair {
            given,
            first: Program::accept(&given.first),
            second: Program::accept(&given.second),
        }
    }

    /// The sizes of both, where both are accepted.
    fn sizes(&self) -> Option<[Sizes; 2]> {
        let first = Sizes::of(&self.given.first, self.first.as_ref().ok()?);
        let second = Sizes::of(&self.given.second, self.second.as_ref().ok()?);
        Some([first, second])
    }

    /// What the reference makes of the two.
    fn joined(&self) -> Result<Vec<u8>, Unjoined> {
        if let Err(no) = self.first {
            return Err(Unjoined::First(no));
        }
        if let Err(no) = self.second {
            return Err(Unjoined::Second(no));
        }
        let sizes = self.sizes().expect("both are accepted");
        let images = [&self.given.first[..], &self.given.second];
        join_accepted(images, sizes, self.given.places)
    }
}

/// Joins two images by the proved library and asserts its answer and all places.
#[track_caller]
fn assert_joined(given: &Join, expected: &Result<Vec<u8>, Unjoined>, origin: &str) {
    let Join {
        first,
        second,
        places,
    } = given;
    let (mut after, mut found) = (untouched(*places), untouched(*places));
    if let Ok(bytes) = expected {
        after[MARGIN..MARGIN + bytes.len()].copy_from_slice(bytes);
    }
    let answer = engine::join(first, second, &mut found[MARGIN..MARGIN + places]);
    let right = expected.as_ref().map(Vec::len).map_err(|&no| no);
    assert_eq!(answer, right, "{origin}");
    let differs = found.iter().zip(&after).position(|(is, was)| is != was);
    assert_eq!(differs, None, "{origin}: a place of the buffer");
}

/// What a refusal is called.
fn refusal_name(pair: &Pair, no: &Unjoined) -> String {
    match no {
        Unjoined::First(no) => format!("first refused by {}", no.number),
        Unjoined::Second(no) => format!("second refused by {}", no.number),
        Unjoined::Together(no) => {
            let [first, second] = pair.sizes().expect("both are accepted");
            let broken = first.with(second).broken(pair.given.places);
            match broken[..] {
                [bound] => format!("{} for {bound:?} alone", no.number),
                _ => format!("{} for several", no.number),
            }
        }
    }
}

/// What a pair that goes together meets, in words.
fn special(pair: &Pair) -> Vec<&'static str> {
    let [first, second] = pair.sizes().expect("both are accepted");
    let together = first.with(second);
    [
        (together.bytes == MAX_IMAGE, "exactly 32,768 bytes"),
        (together.functions == FUNCTIONS, "exactly 32 functions"),
        (together.versions == VERSIONS, "exactly 64 versions"),
        (together.bytes == pair.given.places, "exactly the buffer"),
        (pair.given.first == pair.given.second, "with itself"),
    ]
    .into_iter()
    .filter_map(|(holds, name)| holds.then_some(name))
    .collect()
}

/// What a pair that is refused by 23 misses by one, in words.
fn missed(pair: &Pair) -> Vec<&'static str> {
    let Some([first, second]) = pair.sizes() else {
        return Vec::new();
    };
    let together = first.with(second);
    let broken = together.broken(pair.given.places);
    [
        (
            Bound::Bytes,
            together.bytes == MAX_IMAGE + 1,
            "one byte more",
        ),
        (
            Bound::Functions,
            together.functions == FUNCTIONS + 1,
            "one function more",
        ),
        (
            Bound::Versions,
            together.versions == VERSIONS + 1,
            "one version more",
        ),
        (
            Bound::Buffer,
            together.bytes == pair.given.places + 1,
            "a place short",
        ),
    ]
    .into_iter()
    .filter_map(|(bound, by_one, name)| (by_one && broken == [bound]).then_some(name))
    .collect()
}

/// Joins a pair by both and compares all that a joined image promises.
fn try_pair(seed: u64, met: &mut Tally<String>) {
    let (given, origin) = (to_join(seed), format!("seed {seed}"));
    let pair = Pair::of(&given);
    let expected = pair.joined();
    assert_joined(&given, &expected, &origin);
    let names = match &expected {
        Ok(_) => special(&pair),
        Err(no) => {
            met.meet(refusal_name(&pair, no));
            missed(&pair)
        }
    };
    names.iter().for_each(|name| met.meet(name.to_string()));
    let (Ok(bytes), Ok(first), Ok(second)) = (&expected, &pair.first, &pair.second) else {
        return;
    };
    met.meet("joined".to_string());
    let versions = first.versions.len() + second.versions.len();
    assert_eq!(
        engine::verdict(bytes),
        Verdict::Accepted(versions),
        "{origin}"
    );
    let [sizes, others] = pair.sizes().expect("both are accepted");
    parts::assert_found_again(&given, bytes, sizes.functions, met);
    parts::assert_same_bounds(&given, bytes, sizes.functions, met);
    runs::assert_alike(seed, &pair, bytes, [sizes, others], met);
}

/// What all workers met, each with its share of the pairs.
fn in_parallel() -> Tally<String> {
    let workers = thread::available_parallelism().map_or(1, usize::from) as u64;
    let share = |worker: u64| {
        move || {
            let mut met = Tally::default();
            for seed in (worker..PAIRS).step_by(workers as usize) {
                try_pair(seed, &mut met);
            }
            met
        }
    };
    let mut met = Tally::default();
    thread::scope(|scope| {
        let start = |worker| scope.spawn(share(worker));
        let shares: Vec<_> = (0..workers).map(start).collect();
        for worker in shares {
            met.add(worker.join().expect("a worker found no difference"));
        }
    });
    met
}

#[test]
fn joined_images_agree_and_run_as_alone() {
    let met = in_parallel();
    println!("{met}");
    assert_refusals(&met);
    for (name, fewest) in [
        ("joined", 30_000),
        ("exactly 32,768 bytes", 100),
        ("one byte more", 200),
        ("exactly 32 functions", FEWEST),
        ("one function more", FEWEST),
        ("exactly 64 versions", FEWEST),
        ("one version more", FEWEST),
        ("exactly the buffer", 10_000),
        ("a place short", 1_000),
        ("with itself", FEWEST),
        ("a CALL renumbered", 10_000),
        ("a DISPATCH renumbered", 10_000),
        ("bounds and none in one joined image", 500),
    ] {
        assert!(met.count(name) >= fewest, "{name}: {}", met.count(name));
    }
    runs::assert_met(&met);
}

/// Asserts that each refusal was met often enough.
fn assert_refusals(met: &Tally<String>) {
    for bound in [
        Bound::Bytes,
        Bound::Functions,
        Bound::Versions,
        Bound::Buffer,
    ] {
        let name = format!("23 for {bound:?} alone");
        assert!(met.count(&name) >= FEWEST, "{name}: {}", met.count(&name));
    }
    for image in ["first", "second"] {
        let name = |number| format!("{image} refused by {number}");
        let counts = QUESTIONS.map(|number| met.count(&name(number)));
        assert!(
            counts.iter().all(|&count| count >= 50),
            "{image}: {counts:?}"
        );
        assert!(
            counts.iter().sum::<usize>() >= FEWEST,
            "{image}: {counts:?}"
        );
    }
}

/// The bytes that the proved library makes of two images.
fn together(first: &[u8], second: &[u8]) -> Result<Vec<u8>, Unjoined> {
    let mut bytes = vec![0; MAX_IMAGE];
    let length = engine::join(first, second, &mut bytes)?;
    bytes.truncate(length);
    Ok(bytes)
}

#[test]
fn three_images_are_joined_from_either_side_alike() {
    let mut joined = 0;
    for seed in 0..THREES {
        let [a, b, c] = [1, 2, 3].map(|part| to_join_with(seed * 4 + part));
        let left = together(&a, &b).and_then(|both| together(&both, &c));
        let right = together(&b, &c).and_then(|both| together(&a, &both));
        assert_eq!(left.as_ref().ok(), right.as_ref().ok(), "seed {seed}");
        joined += usize::from(left.is_ok());
    }
    assert!(joined >= 3_000, "{joined} of {THREES} go together");
}
