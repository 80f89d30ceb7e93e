//! What images that may be mended meet, and that a single wrong type always is.

use generator::{to_mend, Fault, Tally};
use reference::mends::{register_types, MENDED};
use reference::{mend, verdict, Mended, Refusal, Verdict};

/// How many images are made.
const IMAGES: u64 = 3_000;

/// What becomes of an image, in words.
fn met_by(mended: Mended) -> String {
    match mended {
        Mended::Accepted(_) => "accepted".to_string(),
        Mended::Refused(_) => "refused by another".to_string(),
        Mended::Byte { refusal, .. } => format!("{} mended", refusal.number),
        Mended::Unmended(Refusal { number, .. }) => format!("{number} not mended"),
    }
}

#[test]
fn images_are_mended_and_not_by_each_question() {
    let mut met: Tally<String> = Tally::default();
    for seed in 0..IMAGES {
        let given = to_mend(seed);
        let mended = mend(&given.image);
        if let Mended::Byte { offset, value, .. } = mended {
            let mut changed = given.image.clone();
            changed[offset] = value;
            assert!(register_types(&given.image).contains(&offset), "{seed}");
            assert!(matches!(verdict(&changed), Verdict::Accepted(_)), "{seed}");
        }
        if given.fault == Fault::OneType {
            assert!(!matches!(mended, Mended::Unmended(_)), "{seed}");
        }
        if given.fault == Fault::TwoTypes && matches!(mended, Mended::Unmended(_)) {
            met.meet("two types".to_string());
        }
        met.meet(met_by(mended));
    }
    println!("{met}");
    for number in MENDED {
        for name in [format!("{number} mended"), format!("{number} not mended")] {
            assert!(met.count(&name) >= 60, "{name}: {}", met.count(&name));
        }
    }
    for name in ["accepted", "refused by another", "two types"] {
        assert!(met.count(name) >= 60, "{name}: {}", met.count(name));
    }
}
