//! Images and words of 32 bits: the form before.

use crate::draft::Draft;
use reference::{Form, Instruction, Integer, Range, Record};

/// The bytes of a draft in the form before; a literal that does not fit 32 bits
/// becomes the nearest that does.
pub fn bytes(draft: &Draft) -> Vec<u8> {
    let records = draft.records().into_iter().map(fitting);
    records
        .flat_map(|record| record.bytes_in(Form::Narrow))
        .collect()
}

/// A record whose literal, if it is one, fits 32 bits.
fn fitting(record: Record) -> Record {
    match record {
        Record::Instruction(Instruction::Lit { d, value }) => {
            let value = narrowed(value);
            Record::Instruction(Instruction::Lit { d, value })
        }
        _ => record,
    }
}

/// The integer of 32 bits that is nearest.
pub fn narrowed(integer: Integer) -> Integer {
    integer.clamp(Range::NARROW.least, Range::NARROW.greatest)
}
