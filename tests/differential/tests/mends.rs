//! The smallest mend: the proved library names the byte and the value that the plain search
//! of the reference finds, or that there is none, beside the same refusal. The image stays,
//! and the change makes it accepted.

use differential::{edges, engine};
use generator::{accepted_of, damaged, to_mend, Fault, Random, Tally, Theme};
use reference::mends::{register_types, MENDED};
use reference::{mend, Mended, Verdict};

/// How many images are generated, and the fewest that 6, 8, 9 or 10 refuses.
const IMAGES: u64 = 40_000;
const FEWEST_REFUSED: usize = 30_000;
/// The fewest that each of them refuses, and that are mended and not among those.
const FEWEST_EACH: usize = 5_000;
const FEWEST_OF_EACH_SORT: usize = 1_500;

/// Images of more registers that are compared, and images of any size whose mend is tried.
const LONGER: u64 = 250;
const LARGE: u64 = 4_000;

/// What the proved library answers for an image, which stays as it is; a change that it
/// names makes the image accepted.
#[track_caller]
fn found(image: &[u8], origin: &str) -> Mended {
    let lent = image.to_vec();
    let found = engine::mend(&lent);
    assert!(lent == image, "{origin}: the image is written to");
    if let Mended::Byte { offset, value, .. } = found {
        let mut changed = lent;
        assert!(register_types(image).contains(&offset), "{origin}");
        assert_ne!(changed[offset], value, "{origin}");
        changed[offset] = value;
        let verdict = engine::verdict(&changed);
        let accepted = matches!(verdict, Verdict::Accepted(_));
        assert!(accepted, "{origin}: {found:?}, but {verdict:?}");
    }
    found
}

/// Asserts that the proved library answers as the plain search does; the answer.
#[track_caller]
fn compare(image: &[u8], origin: &str) -> Mended {
    let (found, expected) = (found(image, origin), mend(image));
    assert!(
        found == expected,
        "{origin}: {found:?}, not {expected:?}\n{}",
        text::listing(image)
    );
    found
}

/// Counts an answer by its refusal.
fn meet(met: &mut Tally<String>, mended: Mended) {
    let (number, sort) = match mended {
        Mended::Accepted(_) => return met.meet("accepted".to_string()),
        Mended::Refused(no) => return met.meet(format!("refused by {}", no.number)),
        Mended::Byte { refusal, .. } => (refusal.number, "mended"),
        Mended::Unmended(refusal) => (refusal.number, "not mended"),
    };
    met.meet("refused by 6, 8, 9 or 10".to_string());
    met.meet(format!("{number}"));
    met.meet(format!("{number} {sort}"));
}

/// Asserts that so many were met at least.
#[track_caller]
fn at_least(met: &Tally<String>, name: &str, fewest: usize) {
    assert!(met.count(name) >= fewest, "{name}: {}", met.count(name));
}

#[test]
fn the_byte_and_its_value_are_those_of_the_plain_search() {
    let mut met: Tally<String> = Tally::default();
    for seed in 0..IMAGES {
        let given = to_mend(seed);
        let mended = compare(&given.image, &format!("seed {seed}"));
        match (given.fault, mended) {
            (Fault::TwoTypes, Mended::Unmended(_)) => met.meet("two types".to_string()),
            (_, Mended::Byte { offset, .. }) => {
                let is_first = register_types(&given.image)[0] == offset;
                let name = if is_first {
                    "the first byte"
                } else {
                    "a further byte"
                };
                met.meet(name.to_string());
            }
            _ => {}
        }
        meet(&mut met, mended);
    }
    println!("{met}");
    at_least(&met, "refused by 6, 8, 9 or 10", FEWEST_REFUSED);
    for number in MENDED {
        at_least(&met, &format!("{number}"), FEWEST_EACH);
        for sort in ["mended", "not mended"] {
            at_least(&met, &format!("{number} {sort}"), FEWEST_OF_EACH_SORT);
        }
    }
    for number in [7, 14, 18] {
        at_least(&met, &format!("refused by {number}"), 100);
    }
    at_least(&met, "accepted", 400);
    for name in ["two types", "the first byte", "a further byte"] {
        at_least(&met, name, 500);
    }
}

#[test]
fn longer_versions_are_mended_alike() {
    let mut met: Tally<String> = Tally::default();
    for seed in 0..LONGER {
        let mut random = Random::new(seed);
        let mut image = accepted_of(Theme::Single, seed);
        let places = register_types(&image);
        for _ in 0..1 + random.below(2) {
            image[random.pick(&places)] = random.pick(&[0, 1, 2, 3, 4, 5, 0x13, 0x23]);
        }
        meet(&mut met, compare(&image, &format!("seed {seed}")));
    }
    println!("{met}");
    at_least(&met, "8 mended", 60);
}

#[test]
fn what_is_named_for_an_image_of_any_size_mends_it() {
    let mut met: Tally<String> = Tally::default();
    for seed in 0..LARGE {
        let image = damaged(seed).bytes;
        let mended = found(&image, &format!("seed {seed}"));
        let refused = match mended {
            Mended::Accepted(versions) => Verdict::Accepted(versions),
            Mended::Refused(no) | Mended::Unmended(no) => Verdict::Refused(no),
            Mended::Byte { refusal, .. } => Verdict::Refused(refusal),
        };
        assert_eq!(refused, engine::verdict(&image), "{seed}");
        meet(&mut met, mended);
    }
    println!("{met}");
    for name in ["6 mended", "8 mended", "9 not mended", "10 not mended"] {
        at_least(&met, name, 50);
    }
}

#[test]
fn images_at_the_edges_get_an_answer() {
    for (name, image) in edges::edges() {
        found(&image, &name);
    }
}
