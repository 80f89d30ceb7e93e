//! What pairs of images that are to be joined meet, and that a joined image is accepted.

use generator::{to_join, Join, Tally};
use reference::{join, verdict, Program, Unjoined, Verdict};

/// How many pairs are made.
const PAIRS: u64 = 6_000;

/// How many versions an accepted image has.
fn versions(image: &[u8]) -> usize {
    Program::accept(image).map_or(0, |program| program.versions.len())
}

#[test]
fn pairs_go_together_and_meet_every_refusal() {
    let mut met = Tally::default();
    for seed in 0..PAIRS {
        let Join {
            first,
            second,
            places,
        } = to_join(seed);
        met.meet(match join(&first, &second, places) {
            Ok(joined) => {
                let together = versions(&first) + versions(&second);
                assert_eq!(verdict(&joined), Verdict::Accepted(together), "{seed}");
                "joined"
            }
            Err(Unjoined::First(_)) => "first",
            Err(Unjoined::Second(_)) => "second",
            Err(Unjoined::Together(no)) => {
                assert_eq!((no.number, no.offset), (23, 0), "{seed}");
                "together"
            }
        });
    }
    println!("{met}");
    for (name, fewest) in [
        ("joined", 3_500),
        ("first", 400),
        ("second", 300),
        ("together", 600),
    ] {
        assert!(met.count(name) >= fewest, "{name}: {}", met.count(name));
    }
}
