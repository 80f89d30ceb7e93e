//! "Image": the bytes of each record.

use reference::record::{BlockRecord, VersionRecord};
use reference::{Instruction as I, Level, Mark, Record, Type};

/// Asserts that the bytes are those of the record, both ways.
#[track_caller]
fn layout(bytes: &[u8], record: Record) {
    assert_eq!(usize::from(bytes[0]), bytes.len());
    let kind = u16::from_le_bytes([bytes[2], bytes[3]]);
    assert_eq!(Record::read(kind, &bytes[4..]).as_ref(), Some(&record));
    assert_eq!(record.bytes(), bytes);
}

/// Asserts that the bytes are those of the instruction.
#[track_caller]
fn instruction(bytes: &[u8], instruction: I) {
    layout(bytes, Record::Instruction(instruction));
}

#[test]
fn kind_1_version() {
    let bytes = [13, 0, 1, 0, 3, 2, 1, 3, 0x13, 8, 0x23, 0x02, 0x05];
    let record = VersionRecord {
        function: 3,
        version: 2,
        parameters: 1,
        returns: Type(0x13),
        blocks: 8,
        types: vec![Type(0x23), Type(2), Type(5)],
    };
    layout(&bytes, Record::Version(record));
}

#[test]
fn kind_2_block() {
    let record = BlockRecord {
        mark: Mark(1),
        result: 9,
        instructions: 48,
    };
    layout(&[7, 0, 2, 0, 1, 9, 48], Record::Block(record));
}

#[test]
fn kind_3_level() {
    layout(&[5, 0, 3, 0, 2], Record::Level(Level::FACTORY));
    layout(&[5, 0, 3, 0, 7], Record::Level(Level(7)));
}

#[test]
fn kind_17_move() {
    instruction(&[6, 0, 17, 0, 1, 2], I::Move { d: 1, a: 2 });
}

#[test]
fn kind_18_use() {
    instruction(&[6, 0, 18, 0, 1, 2], I::Use { d: 1, a: 2 });
}

#[test]
fn kind_19_dup() {
    instruction(&[6, 0, 19, 0, 1, 2], I::Dup { d: 1, a: 2 });
}

#[test]
fn kind_20_vec() {
    let items = vec![4, 5, 4];
    instruction(&[9, 0, 20, 0, 1, 3, 4, 5, 4], I::Vec { d: 1, items });
    let items = vec![];
    instruction(&[6, 0, 20, 0, 1, 0], I::Vec { d: 1, items });
}

#[test]
fn kind_21_len() {
    instruction(&[6, 0, 21, 0, 1, 2], I::Len { d: 1, a: 2 });
}

#[test]
fn kind_22_get() {
    instruction(&[7, 0, 22, 0, 1, 2, 3], I::Get { d: 1, a: 2, i: 3 });
}

#[test]
fn kind_23_set() {
    instruction(&[7, 0, 23, 0, 1, 2, 3], I::Set { a: 1, i: 2, e: 3 });
}

#[test]
fn kind_24_arith() {
    let (d, op, a, b) = (1, 4, 2, 3);
    instruction(&[8, 0, 24, 0, 1, 4, 2, 3], I::Arith { d, op, a, b });
}

#[test]
fn kind_25_select() {
    let (d, c, a, b) = (1, 4, 2, 3);
    instruction(&[8, 0, 25, 0, 1, 4, 2, 3], I::Select { d, c, a, b });
}

#[test]
fn kind_26_cast() {
    instruction(&[6, 0, 26, 0, 1, 2], I::Cast { d: 1, a: 2 });
}

#[test]
fn kind_27_named() {
    instruction(&[6, 0, 27, 0, 1, 7], I::Named { d: 1, x: 7 });
}

#[test]
fn kind_28_store() {
    instruction(&[6, 0, 28, 0, 7, 1], I::Store { x: 7, a: 1 });
}

#[test]
fn kind_29_prom() {
    instruction(&[6, 0, 29, 0, 1, 2], I::Prom { d: 1, block: 2 });
}

#[test]
fn kind_30_force() {
    instruction(&[6, 0, 30, 0, 1, 2], I::Force { d: 1, a: 2 });
}

#[test]
fn kind_31_peek() {
    instruction(&[7, 0, 31, 0, 1, 2, 7], I::Peek { d: 1, a: 2, x: 7 });
}

#[test]
fn kind_32_poke() {
    instruction(&[7, 0, 32, 0, 1, 7, 2], I::Poke { a: 1, x: 7, e: 2 });
}

#[test]
fn kind_33_call() {
    let call = I::Call {
        d: 1,
        function: 31,
        version: 3,
        arguments: vec![5, 6],
    };
    instruction(&[10, 0, 33, 0, 1, 31, 3, 2, 5, 6], call);
}

#[test]
fn kind_34_dispatch() {
    let dispatch = I::Dispatch {
        d: 1,
        function: 31,
        mark: Mark(1),
        returns: Type(0x13),
        arguments: vec![(Type(2), 5), (Type(0x23), 6)],
    };
    let bytes = [13, 0, 34, 0, 1, 31, 1, 0x13, 2, 2, 5, 0x23, 6];
    instruction(&bytes, dispatch);
}

#[test]
fn kind_35_skip() {
    instruction(&[6, 0, 35, 0, 2, 255], I::Skip { a: 2, n: 255 });
}

#[test]
fn kind_36_lit() {
    let bytes = [
        13, 0, 36, 0, 3, 0xFE, 0xFF, 0xFF, 0xFF, 0xFF, 0xFF, 0xFF, 0xFF,
    ];
    instruction(&bytes, I::Lit { d: 3, value: -2 });
    let bytes = [13, 0, 36, 0, 3, 1, 2, 3, 4, 5, 6, 7, 8];
    let value = 0x0807_0605_0403_0201;
    instruction(&bytes, I::Lit { d: 3, value });
}

#[test]
fn records_follow_one_another_from_offset_0() {
    let records = reference::questions::records(&cases::IDENTITY);
    let offsets: Vec<usize> = records.unwrap().iter().map(|r| r.offset).collect();
    assert_eq!(offsets, [0, 11, 16]);
}
