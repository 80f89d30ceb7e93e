//! What is asked of images alone: their questions, moves, joins, mends, bounds and loads.

use crate::script::{Kind, Script};
use generator::{accepted, any, depending, to_join, to_mend, to_move, Random};
use reference::bounds::MAX_IMAGE;
use reference::record::HEAD;
use reference::report::report;
use reference::{moved, Form};

/// The longest image of most cases.
pub const SHORT: usize = 1_200;

/// One case in so many may have an image of any length.
const ANY_LENGTH: u64 = 150;

/// Room for every report, as `fir.h` has it.
const REPORT: usize = 1_100;

/// What a maker of seeds makes that is short, but for a few.
pub fn short<T>(seed: u64, make: impl Fn(u64) -> T, length: impl Fn(&T) -> usize) -> T {
    let mut random = Random::new(seed);
    loop {
        let made = make(random.number());
        if length(&made) <= SHORT || seed % ANY_LENGTH == ANY_LENGTH - 1 {
            return made;
        }
    }
}

/// The bytes of the table of an image.
pub fn table(image: &[u8]) -> usize {
    2_304 + image.len().min(MAX_IMAGE) / 6 * 8
}

/// An image of any kind under its questions, in both forms, with its text, and loaded.
pub fn questions(seed: u64, script: &mut Script) {
    let image = short(seed, any, Vec::len);
    let mut random = Random::new(!seed);
    script.image(&image);
    script.event(Kind::Check, &[]);
    let length = report(&image).len();
    for places in [length - 1, length, REPORT] {
        script.event(Kind::Report, &[places]);
    }
    for form in 0..=2 {
        script.with_bytes(Kind::CheckIn, &[form], &[]);
    }
    script.with_bytes(Kind::ReportIn, &[1], &[REPORT]);
    script.event(Kind::TableSize, &[image.len()]);
    let few = random.below(table(&image));
    let room = table(&image);
    let places = random.pick(&[room, room, room - 1, few, 0]);
    script.event(Kind::Load, &[places]);
    script.event(Kind::Bounds, &[]);
}

/// Bytes that stand at an edge of a rule: kinds, types, counts and bounds, and their neighbours.
pub const TELLING: [u8; 33] = [
    0, 1, 2, 3, 4, 5, 7, 8, 9, 15, 16, 17, 18, 19, 20, 23, 24, 31, 32, 33, 34, 35, 36, 37, 47, 48,
    49, 63, 64, 65, 127, 128, 255,
];

/// How many bytes of an image are changed, one after the other.
const CHANGED: usize = 160;

/// The places of an accepted image at which no record's length or kind stands.
fn bodies(image: &[u8]) -> Vec<usize> {
    let (mut bodies, mut at) = (Vec::new(), 0);
    while at < image.len() {
        let end = at + usize::from(image[at]) + 256 * usize::from(image[at + 1]);
        bodies.extend(at + HEAD..end);
        at = end;
    }
    bodies
}

/// An accepted image with a byte changed, and some with the one before changed too, under its questions.
pub fn changed(seed: u64, script: &mut Script) {
    let image = short(seed, accepted, Vec::len);
    let (bodies, mut random) = (bodies(&image), Random::new(!seed));
    let mut kept = None;
    script.image(&image);
    for _ in 0..CHANGED {
        let any = random.below(image.len());
        let at = random.pick(&bodies);
        let at = random.weighted(&[(9, at), (1, any)]);
        let bit = image[at] ^ 1 << random.below(8);
        let byte = random.pick(&TELLING);
        script.in_image(at, random.pick(&[byte, byte, bit]));
        let kind = random.weighted(&[(8, Kind::Check), (3, Kind::Mend), (1, Kind::Bounds)]);
        script.event(kind, &[]);
        if let Some(before) = kept.replace(at) {
            script.in_image(before, image[before]);
        }
        if !random.one_in(4) {
            script.in_image(at, image[at]);
            kept = None;
        }
    }
}

/// An image that is moved to the other form, and what it becomes moved back.
pub fn moves(seed: u64, script: &mut Script) {
    let asked = short(seed, to_move, |asked| asked.image.len());
    let kind = |form| match form {
        Form::Narrow => Kind::Widen,
        Form::Wide => Kind::Narrow,
    };
    script.image(&asked.image);
    script.event(kind(asked.form), &[asked.places]);
    script.event(kind(asked.form), &[MAX_IMAGE]);
    if let Some(image) = moved(asked.form, &asked.image) {
        script.image(&image);
        script.event(kind(asked.form.other()), &[MAX_IMAGE]);
    }
}

/// Two images that are joined, and the second with the first.
pub fn joins(seed: u64, script: &mut Script) {
    let asked = short(seed, to_join, |asked| {
        asked.first.len() + asked.second.len()
    });
    script.image(&asked.first);
    script.image(&asked.second);
    script.event(Kind::Join, &[asked.places]);
    script.image(&asked.first);
    script.event(Kind::Join, &[MAX_IMAGE]);
}

/// An image that is mended.
pub fn mends(seed: u64, script: &mut Script) {
    script.image(&to_mend(seed).image);
    script.event(Kind::Mend, &[]);
}

/// The bounds of an image.
pub fn bounds(seed: u64, script: &mut Script) {
    let image = short(seed, |seed| depending(seed).image, Vec::len);
    script.image(&image);
    script.event(Kind::Bounds, &[]);
    script.event(Kind::Mend, &[]);
}
