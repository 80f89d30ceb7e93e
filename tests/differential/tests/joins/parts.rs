//! What stands where in a joined image: both images again, byte for byte but for the
//! numbers of the second's functions; and the bounds of its versions, which are those of
//! both.

use differential::engine;
use generator::{Join, Tally};
use reference::kinds;
use reference::longest::{Bound, Row};
use reference::record::{Framed, HEAD};

/// Where a record names a function, if it does, and what it is called.
fn function_place(record: &Framed) -> Option<(usize, &'static str)> {
    match record.kind {
        kinds::VERSION => Some((record.offset + HEAD, "a VERSION renumbered")),
        kinds::CALL => Some((record.offset + HEAD + 1, "a CALL renumbered")),
        kinds::DISPATCH => Some((record.offset + HEAD + 1, "a DISPATCH renumbered")),
        _ => None,
    }
}

/// Asserts that a joined image is its first image and then its second, whose functions
/// follow so many others.
pub fn assert_found_again(given: &Join, joined: &[u8], others: usize, met: &mut Tally<String>) {
    let (first, second) = joined.split_at(given.first.len());
    assert_eq!(first, given.first, "the first image");
    let mut expected = given.second.clone();
    let mut offset = 0;
    while let Some(record) = Framed::at(&given.second, offset) {
        if let Some((place, name)) = function_place(&record) {
            expected[place] += others as u8;
            met.meet(name.to_string());
        }
        offset = record.end();
    }
    assert_eq!(offset, expected.len(), "the records of the second image");
    assert_eq!(second, expected, "the second image");
}

/// Asserts that the bounds of a joined image are those of both, whose second's functions
/// follow so many others: rows with a bound of the first, of the second, then those with
/// none of the first, of the second.
pub fn assert_same_bounds(given: &Join, joined: &[u8], others: usize, met: &mut Tally<String>) {
    let rows = |image: &[u8]| engine::bounds(image).expect("an accepted image");
    let (first, mut second) = (rows(&given.first), rows(&given.second));
    for row in &mut second {
        row.function += others as u8;
    }
    let (some, none): (Vec<Row>, Vec<Row>) = {
        let all = first.into_iter().chain(second);
        all.partition(|row| row.bound != Bound::None)
    };
    if !some.is_empty() && !none.is_empty() {
        met.meet("bounds and none in one joined image".to_string());
    }
    assert_eq!(rows(joined), [some, none].concat(), "the bounds");
}
