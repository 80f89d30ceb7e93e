//! Images moved from one form to the other and back, by the proved library and by
//! the reference: answers, every place of the lent buffer and beside it, and what
//! both forms say of the image.

use differential::engine;
use generator::{to_move, Move, Tally};
use reference::bounds::MAX_IMAGE;
use reference::questions::QUESTIONS;
use reference::{move_accepted, moved, report_of, Form, Program, Refusal, Verdict};

/// How many images are generated, and the fewest that go there and back.
const IMAGES: u64 = 245_000;
const FEWEST_MOVED: usize = 200_000;

/// Places on either side of a lent buffer.
const MARGIN: usize = 16;

/// A buffer with its margins, no two neighbouring places alike.
fn untouched(places: usize) -> Vec<u8> {
    let all = 0..places + 2 * MARGIN;
    all.map(|place| (place % 251) as u8).collect()
}

/// Moves an image by the proved library and asserts its answer and all places.
#[track_caller]
fn assert_moved(given: &Move, expected: &Result<Vec<u8>, Refusal>, origin: &str) {
    let Move {
        form,
        image,
        places,
    } = given;
    let (mut after, mut found) = (untouched(*places), untouched(*places));
    if let Ok(bytes) = expected {
        after[MARGIN..MARGIN + bytes.len()].copy_from_slice(bytes);
    }
    let answer = engine::move_from(*form, image, &mut found[MARGIN..MARGIN + places]);
    let right = expected.as_ref().map(Vec::len).map_err(|&no| no);
    assert_eq!(answer, right, "{origin}");
    let differs = found.iter().zip(&after).position(|(is, was)| is != was);
    assert_eq!(differs, None, "{origin}: a place of the buffer");
}

/// Asserts what the proved library says of an image in a form.
#[track_caller]
fn assert_said(form: Form, image: &[u8], answer: &Result<Program, Refusal>, origin: &str) {
    let verdict = engine::verdict_in(form, image);
    assert_eq!(verdict, Verdict::of(answer), "{origin}: {form:?}");
}

/// Asserts the text that the proved library writes of an image in a form.
#[track_caller]
fn assert_text(form: Form, image: &[u8], text: &str, origin: &str) {
    let found = engine::report_in(form, image, text.len());
    assert_eq!(found.as_deref(), Some(text.as_bytes()), "{origin}");
    let short = engine::report_in(form, image, text.len() - 1);
    assert_eq!(short, None, "{origin}: a place short");
}

/// Moves an image there and, if it goes, back; what the first move came to.
fn there_and_back(given: &Move, origin: &str) -> Result<Vec<u8>, Refusal> {
    let Move {
        form,
        image,
        places,
    } = given;
    let (form, other) = (*form, form.other());
    let accepted = Program::accept_in(form, image);
    assert_said(form, image, &accepted, origin);
    assert_said(other, image, &Program::accept_in(other, image), origin);
    let there = match &accepted {
        Ok(_) => move_accepted(form, image, *places),
        Err(no) => Err(*no),
    };
    assert_moved(given, &there, origin);
    if let Ok(bytes) = &there {
        assert_said(other, bytes, &accepted, origin);
        let text = report_of(&accepted);
        assert_text(form, image, &text, origin);
        assert_text(other, bytes, &text, origin);
        let back = Move {
            form: other,
            image: bytes.clone(),
            places: image.len(),
        };
        assert_moved(&back, &Ok(image.clone()), origin);
    }
    there
}

/// What a move meets, in words.
fn met_by(given: &Move, there: &Result<Vec<u8>, Refusal>) -> Vec<String> {
    let Move {
        form,
        image,
        places,
    } = given;
    let from = match form {
        Form::Narrow => "from 32 bits",
        Form::Wide => "from 64 bits",
    };
    let length = moved(*form, image).map_or(0, |bytes| bytes.len());
    let mut all = match there {
        Ok(_) => vec!["moved".to_string(), format!("moved {from}")],
        Err(no) => vec![format!("{from}: refused by {}", no.number)],
    };
    let number = there.as_ref().map_or_else(|no| no.number, |_| 0);
    let special = [
        (number == 0 && length == MAX_IMAGE, "exactly 32,768 bytes"),
        (
            number == 17 && length == MAX_IMAGE + 1 && *places >= length,
            "one byte more",
        ),
        (number == 0 && *places == length, "exactly the buffer"),
        (number == 17 && *places + 1 == length, "a place short"),
        (number == 16 && *places < length, "16 before 17"),
        (
            number == 0 && there.as_ref() == Ok(image),
            "without a literal",
        ),
    ];
    let special = special.into_iter().filter(|(holds, _)| *holds);
    all.extend(special.map(|(_, name)| name.to_string()));
    all
}

#[test]
fn moves_agree_and_come_back() {
    let mut met = Tally::default();
    for seed in 0..IMAGES {
        let given = to_move(seed);
        let there = there_and_back(&given, &format!("seed {seed}"));
        for name in met_by(&given, &there) {
            met.meet(name);
        }
    }
    println!("{met}");
    for (name, fewest) in [
        ("moved", FEWEST_MOVED),
        ("moved from 32 bits", 80_000),
        ("moved from 64 bits", 80_000),
        ("from 64 bits: refused by 16", 5_000),
        ("from 64 bits: refused by 17", 4_000),
        ("from 32 bits: refused by 17", 4_000),
        ("16 before 17", 200),
        ("exactly 32,768 bytes", 100),
        ("one byte more", 100),
        ("exactly the buffer", 60_000),
        ("a place short", 4_000),
        ("without a literal", 10_000),
    ] {
        assert!(met.count(name) >= fewest, "{name}");
    }
    for number in QUESTIONS {
        for form in ["from 32 bits", "from 64 bits"] {
            let name = format!("{form}: refused by {number}");
            assert!(met.count(&name) >= 50, "{name}");
        }
    }
}
