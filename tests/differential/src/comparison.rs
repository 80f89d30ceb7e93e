//! Whether the proved library says of an image what it should.

use reference::Verdict;

/// Asserts the proved library's verdict on an image.
#[track_caller]
pub fn assert_verdict(image: &[u8], expected: Verdict, origin: &str) {
    let found = crate::verdict(image);
    assert!(
        found == expected,
        "{origin}: expected {expected:?}, the proved library says {found:?}\n{}",
        text::listing(image)
    );
}

/// Asserts the proved library's text of an image, with a buffer that is longer
/// than the text, as long, and one place shorter.
#[track_caller]
pub fn assert_report(image: &[u8], expected: &str, origin: &str) {
    let length = expected.len();
    for places in [length + 40, length, length - 1] {
        assert_written(image, expected, places, origin);
    }
}

/// Places on either side of a lent buffer.
const MARGIN: usize = 16;

/// Asserts what the proved library does with a buffer of so many places: it
/// writes the text from place 0 on if there is room for all of it, and nothing
/// else, neither in the buffer nor beside it.
#[track_caller]
pub fn assert_written(image: &[u8], expected: &str, places: usize, origin: &str) {
    let written = compare_text(expected, places, |text| library::report(image, text));
    if let Err(different) = written {
        panic!("{origin}: {different}\n{}", text::listing(image));
    }
}

/// Whether a function writes a text to a buffer of so many places from place 0 on if
/// there is room for all of it, and nothing else, neither in the buffer nor beside it;
/// what differs. A text of no byte is none.
pub fn compare_text(
    expected: &str,
    places: usize,
    write: impl FnOnce(&mut [u8]) -> Option<usize>,
) -> Result<(), String> {
    let written = if places < expected.len() {
        ""
    } else {
        expected
    };
    let mut after = untouched(places);
    after[MARGIN..MARGIN + written.len()].copy_from_slice(written.as_bytes());
    let mut found = untouched(places);
    let length = write(&mut found[MARGIN..MARGIN + places]).unwrap_or(0);
    if length == written.len() && found == after {
        return Ok(());
    }
    Err(format!(
        "with a buffer of {places} places\n\
         expected {} and {written:?} in\n{}\n\
         the proved library gives {length} and leaves\n{}",
        written.len(),
        after.escape_ascii(),
        found.escape_ascii(),
    ))
}

/// A buffer and its margins, all places different from what a text holds.
fn untouched(places: usize) -> Vec<u8> {
    (0..places + 2 * MARGIN)
        .map(|place| 0x80 | place as u8)
        .collect()
}
