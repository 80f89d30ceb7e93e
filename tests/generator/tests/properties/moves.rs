//! What images that are to be moved meet, and that there and back they are the same.

use generator::{to_move, Move, Tally};
use reference::bounds::MAX_IMAGE;
use reference::{move_from, moved, report_in, Form, Refusal};

/// How many images are made.
const MOVES: u64 = 12_000;

/// What a move comes to, in words.
fn name(form: Form, answer: &Result<Vec<u8>, Refusal>) -> String {
    let form = match form {
        Form::Narrow => "from 32 bits",
        Form::Wide => "from 64 bits",
    };
    match answer {
        Ok(_) => format!("{form}: moved"),
        Err(no) => format!("{form}: refused by {}", no.number),
    }
}

/// What is special about a move that goes, or that 17 refuses.
fn special(given: &Move, length: usize) -> Vec<&'static str> {
    let Move {
        form,
        image,
        places,
    } = given;
    let exactly = |wished| *form == Form::Narrow && length == wished && *places >= length;
    [
        (exactly(MAX_IMAGE), "exactly 32,768 bytes"),
        (exactly(MAX_IMAGE + 1), "one byte more"),
        (*places == length, "exactly the buffer"),
        (*places + 1 == length, "a place short"),
        (moved(*form, image).as_ref() == Some(image), "no literal"),
        (
            image.len() == MAX_IMAGE && length == MAX_IMAGE,
            "32,768 bytes without a literal",
        ),
    ]
    .into_iter()
    .filter_map(|(holds, name)| holds.then_some(name))
    .collect()
}

#[test]
fn moves_go_there_and_back_and_meet_every_refusal() {
    let mut met = Tally::default();
    for seed in 0..MOVES {
        let given = to_move(seed);
        let Move {
            form,
            image,
            places,
        } = &given;
        let answer = move_from(*form, image, *places);
        met.meet(name(*form, &answer));
        match &answer {
            Ok(new) => {
                let other = form.other();
                assert_eq!(report_in(*form, image), report_in(other, new), "{seed}");
                let back = move_from(other, new, image.len());
                assert_eq!(back.as_ref(), Ok(image), "{seed}");
            }
            Err(no) if no.number != 17 => continue,
            Err(_) => {}
        }
        let length = moved(*form, image).expect("records").len();
        for name in special(&given, length) {
            met.meet(name.to_string());
        }
    }
    println!("{met}");
    for (what, fewest) in [
        ("from 32 bits: moved", 4_000),
        ("from 64 bits: moved", 4_000),
        ("from 32 bits: refused by 17", 200),
        ("from 64 bits: refused by 17", 200),
        ("from 64 bits: refused by 16", 200),
        ("from 32 bits: refused by 3", 20),
        ("from 64 bits: refused by 3", 20),
        ("exactly 32,768 bytes", 5),
        ("one byte more", 5),
        ("exactly the buffer", 3_000),
        ("a place short", 200),
        ("no literal", 300),
        ("32,768 bytes without a literal", 3),
    ] {
        assert!(met.count(what) >= fewest, "{what}");
    }
    assert_eq!(met.count("from 32 bits: refused by 16"), 0);
}
