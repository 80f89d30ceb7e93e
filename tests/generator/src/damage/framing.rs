//! Ways to fail questions 2 and 3.

use super::edit::record;
use super::Breaker;
use crate::draft::Draft;
use crate::random::Random;
use reference::record::{record_bytes, HEAD};
use reference::{kinds, Instruction, Record};

/// Ways to fail question 2.
pub const HEADS: [Breaker; 6] = [
    cut_inside_a_record,
    tail_shorter_than_a_head,
    length_below_4,
    last_record_too_long,
    far_too_long,
    head_without_its_body,
];

/// Ways to fail question 3.
pub const KINDS: [Breaker; 9] = [
    unknown_kind,
    literal_before,
    literal_of_another_length,
    level_of_another_length,
    high_byte_of_the_kind,
    longer_body,
    shorter_body,
    head_alone,
    count_alone,
];

/// The records' bytes, one record each.
fn split(draft: &Draft) -> Vec<Vec<u8>> {
    draft.records().iter().map(Record::bytes).collect()
}

fn cut_inside_a_record(random: &mut Random, draft: &Draft) -> Option<Vec<u8>> {
    let mut records = split(draft);
    records.truncate(1 + random.below(records.len()));
    let last = records.last_mut()?;
    last.truncate(1 + random.below(last.len() - 1));
    Some(records.concat())
}

fn tail_shorter_than_a_head(random: &mut Random, draft: &Draft) -> Option<Vec<u8>> {
    let mut bytes = draft.bytes();
    let tail = 1 + random.below(HEAD - 1);
    bytes.extend((0..tail).map(|_| random.byte()));
    Some(bytes)
}

fn length_below_4(random: &mut Random, draft: &Draft) -> Option<Vec<u8>> {
    let mut records = split(draft);
    let index = random.below(records.len());
    records[index][0] = random.below(HEAD) as u8;
    Some(records.concat())
}

fn last_record_too_long(random: &mut Random, draft: &Draft) -> Option<Vec<u8>> {
    let mut records = split(draft);
    let last = records.last_mut()?;
    last[0] += 1 + random.below(20) as u8;
    Some(records.concat())
}

fn far_too_long(random: &mut Random, draft: &Draft) -> Option<Vec<u8>> {
    let mut records = split(draft);
    let index = random.below(records.len());
    records[index][1] = 128 + random.below(128) as u8;
    Some(records.concat())
}

fn head_without_its_body(random: &mut Random, draft: &Draft) -> Option<Vec<u8>> {
    let mut bytes = draft.bytes();
    let length = HEAD as u8 + 1 + random.below(9) as u8;
    bytes.extend([length, 0]);
    bytes.extend(kinds::LIT.to_le_bytes());
    Some(bytes)
}

fn unknown_kind(random: &mut Random, draft: &Draft) -> Option<Vec<u8>> {
    let mut records = split(draft);
    let index = random.below(records.len());
    let any = 37 + random.below(219) as u8;
    records[index][2] = random.pick(&[0, 4, 5, 15, 16, 37, 255, any]);
    Some(records.concat())
}

/// A literal of kind 16, with a number of 32 bits or of 64.
fn literal_before(random: &mut Random, draft: &Draft) -> Option<Vec<u8>> {
    other_record(random, draft, kinds::LIT, |random, body| {
        if random.percent(70) {
            body.truncate(1 + size_of::<i32>());
        }
        kinds::NARROW_LIT
    })
}

/// A literal of kind 36 whose number has 4 bytes, 7, 9, or any.
fn literal_of_another_length(random: &mut Random, draft: &Draft) -> Option<Vec<u8>> {
    other_record(random, draft, kinds::LIT, |random, body| {
        let any = random.below(16);
        let bytes = random.pick(&[4, 4, 7, 9, any]);
        body.resize(1 + bytes, 0);
        kinds::LIT
    })
}

/// A LEVEL without its byte, or with more than one.
fn level_of_another_length(random: &mut Random, draft: &Draft) -> Option<Vec<u8>> {
    other_record(random, draft, kinds::LEVEL, |random, body| {
        let bytes = random.pick(&[0, 0, 2, 3, 9]);
        body.resize(bytes, 0);
        kinds::LEVEL
    })
}

/// The image with one of its records of a kind by another kind and body.
fn other_record(
    random: &mut Random,
    draft: &Draft,
    kind: u16,
    other: impl FnOnce(&mut Random, &mut Vec<u8>) -> u16,
) -> Option<Vec<u8>> {
    let records = draft.records();
    let index = record(random, &records, |r| r.kind() == kind)?;
    let mut bytes = split(draft);
    let mut body = bytes[index][HEAD..].to_vec();
    let kind = other(random, &mut body);
    bytes[index] = record_bytes(kind, &body);
    Some(bytes.concat())
}

fn high_byte_of_the_kind(random: &mut Random, draft: &Draft) -> Option<Vec<u8>> {
    let mut records = split(draft);
    let index = random.below(records.len());
    records[index][3] = 1 + random.below(255) as u8;
    Some(records.concat())
}

/// Any record with a body of another length, its head saying so.
fn resized(
    random: &mut Random,
    draft: &Draft,
    resize: impl FnOnce(&mut Random, &mut Vec<u8>),
) -> Option<Vec<u8>> {
    let mut records = split(draft);
    let index = random.below(records.len());
    let record = &mut records[index];
    resize(random, record);
    let length = u16::try_from(record.len()).ok()?;
    record[..2].copy_from_slice(&length.to_le_bytes());
    Some(records.concat())
}

fn longer_body(random: &mut Random, draft: &Draft) -> Option<Vec<u8>> {
    resized(random, draft, |random, record| {
        for _ in 0..=random.below(3) {
            let byte = random.byte();
            record.push(byte);
        }
    })
}

fn shorter_body(random: &mut Random, draft: &Draft) -> Option<Vec<u8>> {
    resized(random, draft, |random, record| {
        let kept = HEAD + random.below(record.len() - HEAD);
        record.truncate(kept);
    })
}

fn head_alone(random: &mut Random, draft: &Draft) -> Option<Vec<u8>> {
    resized(random, draft, |_, record| record.truncate(HEAD))
}

fn count_alone(random: &mut Random, draft: &Draft) -> Option<Vec<u8>> {
    let records = draft.records();
    let index = record(random, &records, |r| count_place(r).is_some())?;
    let place = HEAD + count_place(&records[index])?;
    let mut bytes = split(draft);
    let count = &mut bytes[index][place];
    let other = 1 + random.below(255) as u8;
    let near = random.pick(&[1, 255, other]);
    *count = count.wrapping_add(near);
    Some(bytes.concat())
}

/// Where the body of a record holds the count that makes its length.
fn count_place(record: &Record) -> Option<usize> {
    match record {
        Record::Version(_) => Some(3),
        Record::Instruction(Instruction::Vec { .. }) => Some(1),
        Record::Instruction(Instruction::Call { .. }) => Some(3),
        Record::Instruction(Instruction::Dispatch { .. }) => Some(4),
        _ => None,
    }
}
