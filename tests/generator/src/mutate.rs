//! Images changed byte by byte, and images of chance alone.

use crate::random::Random;
use reference::{kinds, Integer, Level, Mark, Record, Type};

/// Bytes that mean something at many places.
const TELLING: [u8; 26] = [
    0, 1, 2, 3, 4, 5, 6, 7, 8, 9, 15, 16, 17, 18, 20, 31, 32, 33, 34, 35, 36, 37, 48, 49, 128, 255,
];

/// The image after a few changes of bytes.
pub fn mutated(random: &mut Random, mut image: Vec<u8>) -> Vec<u8> {
    for _ in 0..1 + random.below(4) {
        mutate(random, &mut image);
    }
    image
}

/// One change of bytes.
fn mutate(random: &mut Random, image: &mut Vec<u8>) {
    if image.is_empty() {
        image.push(random.byte());
        return;
    }
    let at = random.below(image.len());
    match random.below(8) {
        0 => image[at] ^= 1 << random.below(8),
        1 => image[at] = random.byte(),
        2 | 3 => image[at] = random.pick(&TELLING),
        4 => image[at] = image[at].wrapping_add(random.pick(&[1, 255])),
        5 => drop(image.remove(at)),
        6 => image.insert(at, random.pick(&TELLING)),
        _ => {
            let other = random.below(image.len());
            image.swap(at, other);
        }
    }
}

/// Bytes of chance.
pub fn raw(random: &mut Random) -> Vec<u8> {
    let length = random.pick(&[4, 8, 16, 64, 300]);
    let length = random.below(length + 1);
    (0..length).map(|_| random.byte()).collect()
}

/// Versions, levels, blocks and instructions of the right lengths, their counts and
/// numbers seldom wrong, with fields of chance.
pub fn records(random: &mut Random) -> Vec<u8> {
    let mut image = Vec::new();
    let mut numbers = (0, 0);
    for _ in 0..1 + random.below(3) {
        let blocks = 1 + random.below(3);
        image.extend(version(random, numbers, blocks as u8));
        image.extend(level(random));
        for _ in 0..blocks {
            image.extend(block(random));
        }
        let (function, version) = numbers;
        numbers = random.pick(&[(function, version + 1), (function + 1, 0)]);
    }
    image
}

/// A VERSION of these numbers, or seldom of another.
fn version(random: &mut Random, (function, version): (u8, u8), blocks: u8) -> Vec<u8> {
    let other = field(random);
    let version = random.weighted(&[(20, version), (1, other)]);
    let registers = 1 + random.below(8);
    let parameters = random.below(registers + 1) as u8;
    let returns = return_type(random);
    let mut body = vec![
        function,
        version,
        parameters,
        registers as u8,
        returns,
        blocks,
    ];
    body.extend((0..registers).map(|_| register_type(random)));
    record(kinds::VERSION, body)
}

/// A LEVEL, seldom of no level that there is, seldom none or two.
fn level(random: &mut Random) -> Vec<u8> {
    let other = random.byte();
    let level = random.pick(&Level::ALL).0;
    let level = record(
        kinds::LEVEL,
        vec![random.weighted(&[(30, level), (1, other)])],
    );
    level.repeat(random.weighted(&[(40, 1), (1, 0), (1, 2)]))
}

/// A BLOCK with its instructions, seldom with one more than it says.
fn block(random: &mut Random) -> Vec<u8> {
    let count = random.below(4);
    let mark = random.below(2) as u8;
    let mut block = record(kinds::BLOCK, vec![mark, field(random), count as u8]);
    let wrong = usize::from(random.one_in(30));
    for _ in 0..count + wrong {
        block.extend(instruction(random));
    }
    block
}

/// A record of a kind and a body.
fn record(kind: u16, body: Vec<u8>) -> Vec<u8> {
    let length = u16::try_from(4 + body.len()).expect("a short body");
    [&length.to_le_bytes()[..], &kind.to_le_bytes(), &body].concat()
}

/// A small number, seldom another.
fn field(random: &mut Random) -> u8 {
    if random.one_in(30) {
        random.byte()
    } else {
        random.below(6) as u8
    }
}

/// A type byte for a register, mostly an allowed one.
fn register_type(random: &mut Random) -> u8 {
    let any = random.byte();
    random.weighted(&[
        (20, Type::INTEGER.0),
        (10, Type::ANY.0),
        (10, Type::VALUE.0),
        (10, Type::VECTOR.0),
        (10, Type::OWNED.0),
        (10, 4),
        (10, 5),
        (1, Type::BORROWED.0),
        (1, any),
    ])
}

/// A type byte for a return, mostly an allowed one.
fn return_type(random: &mut Random) -> u8 {
    let any = random.byte();
    random.weighted(&[(30, 2), (10, 1), (10, 3), (10, 0x13), (1, any)])
}

/// An instruction with fields of chance.
fn instruction(random: &mut Random) -> Vec<u8> {
    let kind = kinds::MOVE + random.below(usize::from(kinds::LIT - kinds::MOVE) + 1) as u16;
    let n = random.below(4);
    let fields = |random: &mut Random, count| (0..count).map(|_| field(random)).collect();
    let body: Vec<u8> = match kind {
        kinds::LIT => fields(random, 1 + size_of::<Integer>()),
        kinds::VEC => [vec![field(random), n as u8], fields(random, n)].concat(),
        kinds::ARITH | kinds::SELECT => fields(random, 4),
        kinds::GET | kinds::SET | kinds::PEEK | kinds::POKE => fields(random, 3),
        kinds::CALL => {
            let head = vec![field(random), 0, 0, n as u8];
            [head, fields(random, n)].concat()
        }
        kinds::DISPATCH => {
            let mark = random.pick(&[Mark::QUIET, Mark::REFLECTIVE]).0;
            let mut body = vec![field(random), 0, mark, return_type(random), n as u8];
            for _ in 0..n {
                body.extend([register_type(random), field(random)]);
            }
            body
        }
        _ => fields(random, 2),
    };
    debug_assert!(Record::read(kind, &body).is_some());
    record(kind, body)
}
