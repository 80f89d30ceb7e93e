//! The tool on generated images: damaged ones, changed ones and bytes of chance.

mod support;

use generator::{accepted, any, damaged_at, mutated, Random};
use library::Verdict;
use reference::questions::QUESTIONS;
use reference::{moved, Form};
use std::collections::BTreeMap;
use support::{file, fir};

/// How many images of each sort are made.
const IMAGES: u64 = 2_000;

/// How many damaged images are made for each question.
const DAMAGED: u64 = 400;

/// The general words, by the order of the questions, which stand for a diagnosis that was not found.
const GENERAL: [&str; 12] = [
    "an image has 1 to 32,768 bytes",
    "a record has a full head and a length of at least 4, and ends inside the image",
    "a record's kind is known, and its length is the one that its fields make",
    "numbers, counts, marks, levels, op and n are in bounds, and records in order",
    "the first version is 0.0, and each next one follows on it",
    "a type byte is allowed at its place",
    "what is named exists, and every block but 0 is named by exactly one PROM",
    "no SKIP goes past the end of its block, or of a part that it stands in",
    "types fit",
    "no CALL names a version of a higher level",
    "a block's mark covers its effect",
    "no register is read before it is assigned, used while it is empty, or emptied after it is captured",
];

/// Asserts what `fir check` says of an image in a form; the question that refuses it.
#[track_caller]
fn checked(form: Form, image: &[u8], origin: &str) -> Option<u8> {
    let (bits, of_library) = match form {
        Form::Narrow => ("32", library::Form::Narrow),
        Form::Wide => ("64", library::Form::Wide),
    };
    let done = fir(&["check", "-", "--no-mend", "--form", bits], image);
    assert_eq!(done.errors, "", "{origin}");
    match library::verdict_in(image, of_library) {
        Verdict::Accepted { versions } => {
            assert_eq!(done.status, 0, "{origin}");
            assert_eq!(done.text(), reference::report_in(form, image), "{origin}");
            let last = format!("accepted {versions}\n");
            assert!(done.text().ends_with(&last), "{origin}");
            None
        }
        Verdict::Refused(no) => {
            assert_eq!(done.status, 1, "{origin}");
            let begin = format!("refused by {} at {}: ", no.question, no.offset);
            let text = done.text();
            let words = text.strip_prefix(&begin);
            let words = words.unwrap_or_else(|| panic!("{origin}: {text}"));
            let words = words.strip_suffix('\n').expect("a whole line");
            assert!(!words.contains('\n'), "{origin}: {words}");
            let mut questions = QUESTIONS.iter();
            let place = questions.position(|&number| number == no.question);
            let general = GENERAL[place.expect("a question put to an image")];
            assert_ne!(
                words,
                general,
                "{origin}: no diagnosis\n{}",
                text::listing(image)
            );
            Some(no.question)
        }
    }
}

#[test]
fn refusals_begin_with_the_proved_number_and_place_and_have_words() {
    let mut met = BTreeMap::new();
    let mut meet = |image: &[u8], origin: &str| {
        let question = checked(Form::Wide, image, origin);
        *met.entry(question).or_insert(0) += 1;
    };
    for seed in 0..DAMAGED {
        for question in QUESTIONS {
            let image = damaged_at(question, seed);
            meet(&image, &format!("damaged at {question}, seed {seed}"));
        }
    }
    for seed in 0..IMAGES {
        meet(&mutated(seed), &format!("mutated, seed {seed}"));
        meet(&any(seed), &format!("any, seed {seed}"));
    }
    println!("{met:?}");
    for question in QUESTIONS {
        assert!(met.contains_key(&Some(question)), "never met: {question}");
    }
    assert!(met.contains_key(&None), "no image was accepted");
}

#[test]
fn refusals_in_32_bits_have_words_too() {
    let mut met = BTreeMap::new();
    for seed in 0..DAMAGED / 2 {
        for question in QUESTIONS {
            let image = damaged_at(question, seed);
            let image = moved(Form::Wide, &image).unwrap_or(image);
            let origin = format!("damaged at {question}, seed {seed}");
            let question = checked(Form::Narrow, &image, &origin);
            *met.entry(question).or_insert(0) += 1;
        }
    }
    println!("{met:?}");
    for question in QUESTIONS {
        assert!(met.contains_key(&Some(question)), "never met: {question}");
    }
}

/// Asserts that an image comes back from its text byte for byte.
#[track_caller]
fn comes_back(image: &[u8], origin: &str) {
    let text = fir(&["dis", "-"], image);
    assert_eq!((text.status, text.errors.as_str()), (0, ""), "{origin}");
    let bytes = fir(&["asm", "-"], &text.output);
    assert_eq!((bytes.status, bytes.errors.as_str()), (0, ""), "{origin}");
    assert!(bytes.output == image, "{origin}\n{}", text.text());
}

#[test]
fn images_come_back_from_their_text() {
    for seed in 0..IMAGES {
        comes_back(&accepted(seed), &format!("accepted, seed {seed}"));
        comes_back(&mutated(seed), &format!("mutated, seed {seed}"));
        comes_back(&any(seed), &format!("any, seed {seed}"));
    }
    let mut random = Random::new(7);
    for length in 0..600 {
        let bytes: Vec<u8> = (0..length).map(|_| random.byte()).collect();
        comes_back(&bytes, &format!("{length} bytes of chance"));
    }
}

#[test]
fn a_text_and_its_image_get_the_same_verdict() {
    for seed in 0..IMAGES / 10 {
        let image = any(seed);
        let text = fir(&["dis", "-"], &image);
        let file = file("same", "text.fir", &text.output);
        let (by_text, by_bytes) = (fir(&["check", &file], b""), fir(&["check", "-"], &image));
        assert_eq!(by_text.status, by_bytes.status, "seed {seed}");
        let (by_text, by_bytes) = (by_text.text(), by_bytes.text());
        let head = by_bytes.split(": ").next().unwrap_or_default();
        assert!(by_text.contains(head), "seed {seed}: {by_text}");
    }
}
