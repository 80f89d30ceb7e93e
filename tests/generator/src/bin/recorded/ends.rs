//! Each operation with operands at the ends of 64 and of 32 bits.

use crate::images::table;
use crate::script::{Kind, Script, Start};
use reference::bounds::BUFFER;

/// Operands: the ends of both ranges, their neighbours, those of a word without a sign, small ones, and the roots of the ends.
pub const OPERANDS: [i64; 19] = [
    i64::MIN,
    i64::MIN + 1,
    -(1 << 32),
    -(1 << 31) - 1,
    -(1 << 31),
    -3,
    -1,
    0,
    1,
    2,
    3,
    (1 << 31) - 1,
    1 << 31,
    (1 << 32) - 1,
    1 << 32,
    3_037_000_499,
    3_037_000_500,
    i64::MAX - 1,
    i64::MAX,
];

/// The operations of ARITH, by number.
pub const OPERATIONS: [&str; 5] = ["sum", "difference", "product", "quotient", "less"];

/// The image of a version that gives what an operation makes of its two integers: VERSION, LEVEL, BLOCK and ARITH.
fn image(operation: u8) -> Vec<u8> {
    let records: [(u8, &[u8]); 4] = [
        (1, &[0, 0, 2, 3, 2, 1, 2, 2, 2]),
        (3, &[0]),
        (2, &[0, 2, 1]),
        (24, &[2, operation, 0, 1]),
    ];
    let bytes = records.into_iter().flat_map(|(kind, body)| {
        let mut bytes = vec![body.len() as u8 + 4, 0, kind, 0];
        bytes.extend(body);
        bytes
    });
    bytes.collect()
}

/// An operation with one operand and each other one.
pub fn operation(operation: u8, first: i64, script: &mut Script) {
    let image = image(operation);
    script.image(&image);
    script.event(Kind::Load, &[table(&image)]);
    for second in OPERANDS {
        let start = Start {
            level: 0,
            entry: (0, 0),
            words: vec![-1, first, -1, second],
        };
        script.start(Kind::Begin, 0, &start, &[BUFFER]);
        script.event(Kind::Step, &[0]);
        script.event(Kind::Budget, &[0, 1, BUFFER]);
    }
}
