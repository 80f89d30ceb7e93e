//! The proved library and the reference say the same of every image.

use cases::{image, IDENTITY};
use differential::comparison::{assert_report, assert_verdict, assert_written};
use differential::edges::{edges, identities, EVERY_INSTRUCTION};
use generator::{any, call_up, level_fault, Tally, LEVEL_FAULTS, PLACES_OF_CALLS};
use reference::bounds::VERSIONS;
use reference::questions::QUESTIONS;
use reference::{report, report_of, Program, Verdict};
use std::fmt;

/// How many generated images are compared.
const IMAGES: u64 = 220_000;

/// The fewest of them that question 14 refuses.
const FEWEST_14: usize = 5_000;

/// The fewest of them that question 18 refuses, for a call in each place, and that 3 or 4
/// refuses for each fault of a LEVEL record.
const FEWEST_18: usize = 5_000;
const FEWEST_EACH_PLACE: usize = 100;
const FEWEST_EACH_FAULT: usize = 200;

/// The texts of one in so many refused images are compared, those of accepted ones all.
const REFUSED_TEXTS: usize = 4;

/// How often each verdict was met.
#[derive(Default)]
struct Met {
    /// The accepted images.
    accepted: usize,
    /// The refusals by number.
    refused: Tally<u8>,
    /// The faults of LEVEL records, and the places of calls that go up.
    levels: Tally<&'static str>,
    /// The accepted images with exactly 1 version.
    with_one: usize,
    /// The accepted images with exactly 64 versions.
    with_most: usize,
    /// The images whose text was compared.
    texts: usize,
}

impl Met {
    /// Compares what the two say of an image.
    #[track_caller]
    fn compare(&mut self, image: &[u8], origin: &str) {
        let reference = Program::accept(image);
        let verdict = Verdict::of(&reference);
        assert_verdict(image, verdict, origin);
        let wrong = level_fault(image, verdict).or_else(|| call_up(image, verdict));
        wrong.into_iter().for_each(|wrong| self.levels.meet(wrong));
        if self.count(verdict) {
            assert_report(image, &report_of(&reference), origin);
            self.texts += 1;
        }
    }

    /// Counts a verdict; is the text of the image to be compared?
    fn count(&mut self, verdict: Verdict) -> bool {
        match verdict {
            Verdict::Accepted(versions) => {
                self.accepted += 1;
                self.with_one += usize::from(versions == 1);
                self.with_most += usize::from(versions == VERSIONS);
                true
            }
            Verdict::Refused(refusal) => {
                self.refused.meet(refusal.number);
                self.refused.count(&refusal.number) % REFUSED_TEXTS == 1
            }
        }
    }

    /// Was every verdict met, and were the fewest and the most versions?
    fn all(&self) -> bool {
        let refused = QUESTIONS
            .iter()
            .all(|number| self.refused.count(number) > 0);
        refused && self.accepted > 0 && self.with_one > 0 && self.with_most > 0
    }
}

impl fmt::Display for Met {
    fn fmt(&self, formatter: &mut fmt::Formatter) -> fmt::Result {
        writeln!(formatter, "{:>8}  accepted", self.accepted)?;
        writeln!(formatter, "{:>8}  of them with 1 version", self.with_one)?;
        let most = self.with_most;
        writeln!(formatter, "{most:>8}  of them with {VERSIONS} versions")?;
        for number in QUESTIONS {
            let count = self.refused.count(&number);
            writeln!(formatter, "{count:>8}  refused by {number}")?;
        }
        write!(formatter, "{}", self.levels)?;
        writeln!(formatter, "{:>8}  texts compared", self.texts)
    }
}

#[test]
fn verdicts_agree() {
    let mut generated = Met::default();
    for seed in 0..IMAGES {
        generated.compare(&any(seed), &format!("seed {seed}"));
    }
    println!("generated images\n{generated}");
    let mut at_edges = Met::default();
    for (name, image) in edges() {
        at_edges.compare(&image, &name);
    }
    println!("images at the edges\n{at_edges}");
    assert!(generated.all(), "generated images did not meet all");
    let past_the_end = generated.refused.count(&14);
    assert!(past_the_end >= FEWEST_14, "{past_the_end} refused by 14");
    let up = generated.refused.count(&18);
    assert!(up >= FEWEST_18, "{up} refused by 18");
    let places = PLACES_OF_CALLS.map(|place| (place, FEWEST_EACH_PLACE));
    let faults = LEVEL_FAULTS.map(|fault| (fault, FEWEST_EACH_FAULT));
    for (wrong, fewest) in places.into_iter().chain(faults) {
        let count = generated.levels.count(&wrong);
        assert!(count >= fewest, "{wrong}: {count}");
    }
    assert!(at_edges.all(), "images at the edges did not meet all");
}

#[test]
fn reports_go_into_buffers_of_every_length() {
    let images = [
        vec![],
        IDENTITY.to_vec(),
        IDENTITY[..22].to_vec(),
        image(EVERY_INSTRUCTION),
        identities(VERSIONS),
    ];
    for image in &images {
        let text = report(image);
        for places in 0..text.len() + 20 {
            assert_written(image, &text, places, "a buffer of every length");
        }
    }
}
