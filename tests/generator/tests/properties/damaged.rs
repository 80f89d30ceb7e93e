//! Damaged images mostly meet the question they aim at, and all questions are met.

use generator::{any, damaged_at, image, Aim, Tally};
use reference::questions::QUESTIONS;
use reference::record::Framed;
use reference::{kinds, questions_1_to_7, verdict, Instruction, Record, Refusal, Verdict};

/// The number of the question that refuses an image, 0 if it is accepted.
fn number(image: &[u8]) -> u8 {
    match verdict(image) {
        Verdict::Accepted(_) => 0,
        Verdict::Refused(refusal) => refusal.number,
    }
}

#[test]
fn damaged_images_mostly_meet_their_question() {
    const SEEDS: u64 = 1000;
    for aim in QUESTIONS {
        let mut met = Tally::default();
        for seed in 0..SEEDS {
            met.meet(number(&damaged_at(aim, seed)));
        }
        println!("aimed at {aim}, refused by (0: accepted)\n{met}");
        assert!(met.count(&aim) as u64 * 10 > SEEDS * 7, "aim {aim}");
    }
}

#[test]
fn any_images_meet_every_question_and_acceptance_in_every_few_thousand() {
    const SEEDS: u64 = 3000;
    for start in [0, 1_000_000, 7_777_777] {
        let (mut met, mut bytes) = (Tally::default(), 0);
        for seed in start..start + SEEDS {
            let image = any(seed);
            met.meet(number(&image));
            bytes += image.len();
        }
        println!("{SEEDS} images of {} bytes\n{met}", bytes as u64 / SEEDS);
        for answer in [0].into_iter().chain(QUESTIONS) {
            assert!(met.count(&answer) >= 30, "question {answer}");
        }
    }
}

#[test]
fn accepted_aims_are_never_missed() {
    for seed in 0..3000 {
        let image = image(seed);
        if image.aim == Aim::Accepted {
            assert_eq!(number(&image.bytes), 0, "seed {seed}");
        }
    }
}

#[test]
fn questions_1_to_7_and_the_verdict_agree() {
    for seed in 0..3000 {
        let image = any(seed);
        let early = match verdict(&image) {
            Verdict::Refused(refusal) if refusal.number <= 7 => Some(refusal),
            _ => None,
        };
        assert_eq!(questions_1_to_7(&image), early, "seed {seed}");
    }
}

/// The bounds just missed that the records of an image show.
fn boundaries(image: &[u8]) -> Vec<&'static str> {
    let mut met = Vec::new();
    let mut note = |condition: bool, name| met.extend(condition.then_some(name));
    note(image.len() == 32_769, "image of 32,769 bytes");
    let records = reference::questions::records(image).unwrap_or_default();
    let is_version = |record: &Record| matches!(record, Record::Version(_));
    let versions = records.iter().filter(|r| is_version(&r.item)).count();
    note(versions == 65, "65 versions");
    for record in &records {
        match &record.item {
            Record::Version(version) => {
                note(version.function == 32, "function 32");
                note(version.version == 4, "version 4");
                note(version.parameters == 9, "9 parameters");
                note(version.types.is_empty(), "no register");
                note(version.types.len() == 17, "17 registers");
                note(version.blocks == 0, "no block");
                note(version.blocks == 9, "9 blocks");
            }
            Record::Level(level) => note(level.0 == 3, "level 3"),
            Record::Block(block) => {
                note(block.mark.0 == 2, "mark 2");
                note(block.instructions == 49, "49 instructions");
            }
            Record::Instruction(instruction) => {
                let op = matches!(instruction, Instruction::Arith { op: 5, .. });
                note(op, "operation 5");
                note(instruction.name() == Some(8), "name 8");
                let listed = instruction.reads().len() == 9;
                note(listed, "9 listed registers");
            }
        }
    }
    met
}

#[test]
fn damaged_images_stand_at_each_boundary() {
    let mut met = Tally::default();
    for aim in [1, 4, 7] {
        for seed in 0..2000 {
            boundaries(&damaged_at(aim, seed))
                .into_iter()
                .for_each(|b| met.meet(b));
        }
    }
    println!("{met}");
    for boundary in [
        "image of 32,769 bytes",
        "65 versions",
        "function 32",
        "version 4",
        "9 parameters",
        "no register",
        "17 registers",
        "no block",
        "9 blocks",
        "level 3",
        "mark 2",
        "49 instructions",
        "operation 5",
        "name 8",
        "9 listed registers",
    ] {
        assert!(met.count(&boundary) >= 5, "{boundary}");
    }
}

/// What is wrong with the literal that question 3 refuses, if it is one.
fn wrong_literal(image: &[u8]) -> Option<String> {
    let Verdict::Refused(Refusal { number: 3, offset }) = verdict(image) else {
        return None;
    };
    let record = Framed::at(image, offset)?;
    let literal = record.kind == kinds::NARROW_LIT || record.kind == kinds::LIT;
    let bytes = record.body.len().checked_sub(1)?;
    literal.then(|| format!("kind {} with {bytes} bytes", record.kind))
}

#[test]
fn literals_of_the_form_before_and_of_wrong_lengths_are_met() {
    let mut met = Tally::default();
    for seed in 0..4000 {
        let literal = wrong_literal(&damaged_at(3, seed));
        literal.into_iter().for_each(|wrong| met.meet(wrong));
    }
    println!("{met}");
    for wrong in [
        "kind 16 with 4 bytes",
        "kind 16 with 8 bytes",
        "kind 36 with 0 bytes",
        "kind 36 with 4 bytes",
        "kind 36 with 7 bytes",
        "kind 36 with 9 bytes",
    ] {
        assert!(met.count(wrong) >= 10, "{wrong}");
    }
    assert_eq!(met.count("kind 36 with 8 bytes"), 0);
}

#[test]
fn missing_records_are_at_the_image_length() {
    let mut met = 0;
    for seed in 0..1000 {
        let image = damaged_at(4, seed);
        let at_end = Refusal {
            number: 4,
            offset: image.len(),
        };
        met += usize::from(verdict(&image) == Verdict::Refused(at_end));
    }
    assert!(met >= 20, "{met}");
}
