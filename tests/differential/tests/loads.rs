//! Images that are loaded: the answer, the places beside the table, and the program that
//! image and table stand for, which is the one of the reference, part by part.

use definitions::{Block, Instruction, Position, Program, Version};
use differential::edges::edges;
use generator::{any, Random, Tally};
use library::{load, table_size, Loaded};
use reference::program as checked;
use reference::record::Placed;
use reference::{questions::QUESTIONS, Instruction as Expected};

/// How many images are generated.
const IMAGES: u64 = 60_000;

/// The fewest of them that are loaded.
const FEWEST_LOADED: usize = 10_000;

/// What fills a table, and the places beside it.
const FILLING: u8 = 0xA5;
const MARGIN: usize = 16;

/// The bytes of a table that say which versions there are.
const VERSIONS: usize = 256;

/// The numbers of versions, and of those that no function has.
const FUNCTIONS: usize = 33;
const NUMBERS: usize = 5;

/// The fields of an instruction, as the reference writes them down behind its kind.
fn fields(instruction: &Instruction) -> Vec<u8> {
    use Instruction as I;
    match *instruction {
        I::Lit { d, value } => [&[d][..], &value.to_le_bytes()].concat(),
        I::Move { d, a } | I::Use { d, a } | I::Dup { d, a } | I::Len { d, a } => vec![d, a],
        I::Cast { d, a } | I::Force { d, a } => vec![d, a],
        I::Vec { d, ref items } => [&[d, items.len() as u8][..], items].concat(),
        I::Get { d, a, i } => vec![d, a, i],
        I::Set { a, i, e } => vec![a, i, e],
        I::Arith { d, op, a, b } => vec![d, op, a, b],
        I::Select { d, c, a, b } => vec![d, c, a, b],
        I::Named { d, x } => vec![d, x],
        I::Store { x, a } => vec![x, a],
        I::Prom { d, block } => vec![d, block],
        I::Peek { d, a, x } => vec![d, a, x],
        I::Poke { a, x, e } => vec![a, x, e],
        I::Call {
            d,
            function,
            version,
            ref registers,
        } => {
            let count = registers.len() as u8;
            [&[d, function, version, count][..], registers].concat()
        }
        I::Dispatch {
            d,
            function,
            mark,
            returns,
            ref pairs,
        } => {
            let mut fields = vec![d, function, mark, returns, pairs.len() as u8];
            fields.extend(pairs.iter().flat_map(|&(ty, register)| [ty, register]));
            fields
        }
        I::Skip { a, n } => vec![a, n],
    }
}

/// The first word of what is printed.
fn word(printed: String) -> String {
    let letters = printed.chars().take_while(|c| c.is_alphabetic());
    letters.collect()
}

/// Asserts that an instruction is the expected one.
#[track_caller]
fn assert_instruction(found: &Instruction, expected: &Expected, origin: &str) {
    let (found_name, name) = (word(format!("{found:?}")), word(format!("{expected:?}")));
    assert_eq!(found_name, name, "{origin}");
    assert_eq!(fields(found), expected.body(), "{origin}: {found:?}");
}

/// Asserts that a block is the expected one.
#[track_caller]
fn assert_block(found: Block, expected: &checked::Block, origin: &str) {
    let head = &expected.head;
    let numbers = (found.offset(), found.mark(), found.result());
    let right = (expected.offset, head.mark.0, head.result);
    assert_eq!(numbers, right, "{origin}");
    for (number, Placed { offset, item }) in (0..).zip(&expected.instructions) {
        let Position::Instruction(instruction, at) = found.position(number) else {
            panic!("{origin}: no instruction {number}");
        };
        assert_eq!(at, *offset, "{origin}");
        assert_instruction(&instruction, item, origin);
    }
    let end = expected.instructions.len() as u8;
    assert_eq!(found.position(end), Position::BlockEnd(expected.offset));
    assert_eq!(found.position(end + 1), Position::Outside);
}

/// Asserts that a version is the expected one.
#[track_caller]
fn assert_version(found: Version, expected: &checked::Version, origin: &str) {
    let head = &expected.head;
    let numbers = (found.function(), found.version());
    assert_eq!(numbers, (head.function, head.version), "{origin}");
    let types: Vec<u8> = head.types.iter().map(|ty| ty.0).collect();
    let registers = 0..=types.len() as u8;
    let found_types: Vec<u8> = registers.map_while(|r| found.type_of(r)).collect();
    assert_eq!(found_types, types, "{origin}");
    let parameters = &types[..head.parameters.into()];
    assert_eq!(found.parameter_types(), parameters, "{origin}");
    let numbers = (found.returns(), found.level(), found.mark());
    let right = (head.returns.0, expected.level.0, expected.mark().0);
    assert_eq!(numbers, right, "{origin}");
    for (number, block) in (0..).zip(&expected.blocks) {
        let there = found.block(number).expect("the block is there");
        assert_block(there, block, origin);
    }
    assert!(found.block(expected.blocks.len() as u8).is_none());
}

/// Asserts that image and table stand for a program.
#[track_caller]
fn assert_program(found: Program, expected: &checked::Program, origin: &str) {
    for function in 0..FUNCTIONS {
        for number in 0..NUMBERS {
            let version = found.version(function, number);
            match (version, expected.version(function, number)) {
                (Some(found), Some(expected)) => assert_version(found, expected, origin),
                (None, None) => {}
                (found, _) => panic!("{origin}: {function}.{number} is {}", found.is_some()),
            }
        }
    }
}

/// Loads an image into a table of some length, and compares; what became of it.
fn compare(image: &[u8], random: &mut Random, origin: &str) -> String {
    let needed = table_size(image.len());
    let short = random.below(needed);
    let places = random.weighted(&[
        (12, needed),
        (4, needed - 1),
        (4, needed + 9),
        (4, short),
        (1, 0),
        (1, 1),
    ]);
    let mut memory = vec![FILLING; MARGIN + places + MARGIN];
    let loaded = load(image, &mut memory[MARGIN..MARGIN + places]);
    let (before, table) = memory.split_at(MARGIN);
    let (table, after) = table.split_at(places);
    let untouched = [before, after]
        .iter()
        .all(|m| m.iter().all(|&b| b == FILLING));
    assert!(untouched, "{origin}: places beside the table");
    let found = match loaded {
        Loaded::Ready { versions } => Ok(versions),
        Loaded::Refused(no) => Err((no.question, no.offset)),
        Loaded::Short(bytes) => Err((0, bytes)),
    };
    let program = checked::Program::accept(image);
    let expected = match &program {
        Err(no) => Err((no.number, no.offset)),
        Ok(_) if places < needed => Err((0, needed)),
        Ok(program) => Ok(program.versions.len()),
    };
    assert_eq!(found, expected, "{origin}: {places} places");
    let pair = Program { image, table };
    match (expected, program) {
        (Ok(_), Ok(program)) => {
            assert_program(pair, &program, origin);
            "loaded".to_string()
        }
        (no, _) => {
            let none = checked::Program { versions: vec![] };
            assert_program(pair, &none, origin);
            let first = &table[..VERSIONS.min(places)];
            assert!(first.iter().all(|&byte| byte == 0), "{origin}");
            match no {
                Err((0, _)) => "short".to_string(),
                Err((question, _)) => format!("refused by {question}"),
                Ok(_) => unreachable!("it is refused"),
            }
        }
    }
}

#[test]
fn loaded_images_stand_for_their_programs() {
    let mut met = Tally::default();
    for seed in 0..IMAGES {
        let mut random = Random::new(seed);
        met.meet(compare(&any(seed), &mut random, &format!("seed {seed}")));
    }
    println!("{met}");
    assert!(met.count("loaded") >= FEWEST_LOADED, "too few are loaded");
    assert!(met.count("short") >= FEWEST_LOADED / 3, "too few are short");
    for question in QUESTIONS {
        let name = format!("refused by {question}");
        assert!(met.count(&name) >= 20, "{name}");
    }
}

#[test]
fn images_at_the_edges_stand_for_their_programs() {
    let mut random = Random::new(0);
    let mut loaded = 0;
    for (name, image) in edges() {
        for _ in 0..4 {
            let became = compare(&image, &mut random, &name);
            loaded += usize::from(became == "loaded");
        }
    }
    assert!(loaded > 20, "{loaded}");
}
