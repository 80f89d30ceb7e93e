//! How long at most: every row of the proved library and of the reference agrees, on
//! images whose versions depend on each other in every way, and straight runs meet their
//! bounds exactly.

use differential::edges;
use differential::engine;
use generator::{depending, exact, Shape, Tally};
use library::{FIR_LARGE, FIR_NONE, FIR_ROWS, ROW_NUMBERS};
use reference::bounds::{Steps, BUFFER, VERSIONS};
use reference::longest::Row;
use reference::questions::QUESTIONS;
use reference::{bounds_of, Answer, Bound, Refusal};

/// How many images are generated, and the fewest that are accepted.
const IMAGES: u64 = 110_000;
const FEWEST_ACCEPTED: usize = 100_000;

/// The steps of the straight runs, from the fewest on.
const STRAIGHT: std::ops::Range<u64> = 2..2_000;

/// A number for a place that is not written.
fn untouched(place: usize) -> u64 {
    0xA5A5_0000_0000 + place as u64
}

/// The arrays that are lent, as they are before.
fn lent() -> ([u8; ROW_NUMBERS], [u64; FIR_ROWS]) {
    let numbers = std::array::from_fn(|place| 0x80 | place as u8);
    (numbers, std::array::from_fn(untouched))
}

/// The arrays after these rows were written.
fn written(rows: &[Row]) -> ([u8; ROW_NUMBERS], [u64; FIR_ROWS]) {
    let (mut numbers, mut steps) = lent();
    for (index, row) in rows.iter().enumerate() {
        numbers[2 * index] = row.function;
        numbers[2 * index + 1] = row.version;
        steps[index] = match row.bound {
            Bound::Steps(steps) => steps.into(),
            Bound::Large => FIR_LARGE,
            Bound::None => FIR_NONE,
        };
    }
    (numbers, steps)
}

/// Asserts the answer of the proved library for an image, and every place of both arrays;
/// what the reference gives.
#[track_caller]
fn compare(image: &[u8], origin: &str) -> Result<Vec<Row>, Refusal> {
    let expected = bounds_of(image);
    let (mut numbers, mut steps) = lent();
    let found = engine::bounds_into(image, &mut numbers, &mut steps);
    let right = expected.as_ref().map(Vec::len).map_err(|&no| no);
    let listing = || text::listing(image);
    assert!(
        found == right,
        "{origin}: {found:?}, not {right:?}\n{}",
        listing()
    );
    let rows: &[Row] = expected.as_deref().unwrap_or(&[]);
    let after = written(rows);
    assert!(
        (numbers, steps) == after,
        "{origin}: expected {rows:?}\nthe proved library writes {:?}\n{}",
        engine::bounds(image),
        listing()
    );
    expected
}

/// What an image comes to, in words.
fn met_by(rows: &Result<Vec<Row>, Refusal>) -> Vec<String> {
    let rows = match rows {
        Err(no) => return vec![format!("refused by {}", no.number)],
        Ok(rows) => rows,
    };
    let mut names = vec!["accepted".to_string()];
    for row in rows {
        names.push(match row.bound {
            Bound::Steps(Steps::MAX) => "row: 4,294,967,295".to_string(),
            Bound::Steps(_) => "row: steps".to_string(),
            Bound::Large => "row: large".to_string(),
            Bound::None => "row: none".to_string(),
        });
    }
    let has = |bound: fn(&Bound) -> bool| rows.iter().any(|row| bound(&row.bound));
    if has(|bound| *bound == Bound::None) && has(|bound| matches!(bound, Bound::Steps(_))) {
        names.push("some rows with a bound, some with none".to_string());
    }
    let number = |row: &Row| (row.function, row.version);
    if rows.windows(2).any(|two| number(&two[0]) > number(&two[1])) {
        names.push("another order than that of numbers".to_string());
    }
    if rows.len() == VERSIONS {
        names.push("64 rows".to_string());
    }
    names
}

#[test]
fn every_row_agrees_and_no_other_place_is_written() {
    let mut met = Tally::default();
    for seed in 0..IMAGES {
        let given = depending(seed);
        let rows = compare(&given.image, &format!("seed {seed}"));
        for name in met_by(&rows) {
            met.meet(name);
        }
    }
    println!("{met}");
    for (name, fewest) in [
        ("accepted", FEWEST_ACCEPTED),
        ("row: steps", 400_000),
        ("row: 4,294,967,295", 300),
        ("row: large", 2_000),
        ("row: none", 100_000),
        ("some rows with a bound, some with none", 5_000),
        ("another order than that of numbers", 40_000),
        ("64 rows", 1_000),
    ] {
        assert!(met.count(name) >= fewest, "{name}: {}", met.count(name));
    }
    for number in QUESTIONS {
        let name = format!("refused by {number}");
        assert!(met.count(&name) >= 50, "{name}: {}", met.count(&name));
    }
}

#[test]
fn images_at_the_edges_agree() {
    for (name, image) in edges::edges() {
        let _ = compare(&image, &name);
    }
    for bound in [
        (1 << 32) - 2,
        (1 << 32) - 1,
        1 << 32,
        (1 << 32) + 1,
        u64::MAX,
    ] {
        let rows = compare(&exact(bound), &format!("a bound of {bound}"));
        let rows = rows.expect("an accepted image");
        let expected = Steps::try_from(bound).map_or(Bound::Large, Bound::Steps);
        assert_eq!(rows.last().map(|row| row.bound), Some(expected), "{bound}");
    }
}

#[test]
fn straight_runs_meet_their_bounds_exactly() {
    let mut exactly = 0;
    for steps in STRAIGHT {
        let image = exact(steps);
        let (mut run, begun) = engine::begin(&image, 0, (0, 0), &[], &[0; BUFFER]);
        assert_eq!(begun, Ok(()), "{steps}");
        let (answer, taken) = engine::budget(&mut run, Steps::MAX, &mut [0; BUFFER]);
        assert!(matches!(answer, Answer::Ended(_)), "{steps}: {answer:?}");
        assert_eq!((u64::from(taken), run.taken()), (steps, steps));
        assert_eq!(run.met_exactly(), Some(true), "{steps}: {:?}", run.bound());
        exactly += 1;
    }
    assert!(exactly >= 1_000, "{exactly}");
}

#[test]
fn a_shape_that_is_exact_has_its_bound() {
    let shapes = (0..2_000).map(depending);
    let mut seen = 0;
    for given in shapes {
        let Shape::Exact(bound) = given.shape else {
            continue;
        };
        let rows = engine::bounds(&given.image).expect("an accepted image");
        let expected = Steps::try_from(bound).map_or(Bound::Large, Bound::Steps);
        assert_eq!(rows.last().map(|row| row.bound), Some(expected), "{bound}");
        seen += 1;
    }
    assert!(seen >= 100, "{seen}");
}
