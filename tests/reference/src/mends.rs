//! "Smallest mend": the one register type byte of a VERSION record whose change makes a
//! refused image accepted, by trying each with each value.

use crate::questions::{records, verdict, Refusal, Verdict};
use crate::record::{Placed, Record, HEAD};

/// The questions whose refusals are mended.
pub const MENDED: [u8; 4] = [6, 8, 9, 10];

/// The fields of a VERSION record before its types: its function and version, parameters
/// and registers, return type and blocks.
const BEFORE_THE_TYPES: usize = 6;

/// What can be done for an image.
#[derive(Clone, Copy, PartialEq, Eq, Debug)]
pub enum Mended {
    /// It is accepted, and has so many versions.
    Accepted(usize),
    /// Another question refuses it than 6, 8, 9 and 10.
    Refused(Refusal),
    /// The byte at an offset, changed to a value, makes it accepted.
    Byte {
        /// The refusal.
        refusal: Refusal,
        /// Where the byte stands.
        offset: usize,
        /// Its new value.
        value: u8,
    },
    /// No register type byte makes it accepted.
    Unmended(Refusal),
}

/// What can be done for an image: of the changes that make it accepted that of the lowest
/// offset, then of the lowest new value.
pub fn mend(image: &[u8]) -> Mended {
    let refusal = match verdict(image) {
        Verdict::Accepted(versions) => return Mended::Accepted(versions),
        Verdict::Refused(refusal) => refusal,
    };
    if !MENDED.contains(&refusal.number) {
        return Mended::Refused(refusal);
    }
    let mut changed = image.to_vec();
    for offset in register_types(image) {
        for value in u8::MIN..=u8::MAX {
            changed[offset] = value;
            if value != image[offset] && matches!(verdict(&changed), Verdict::Accepted(_)) {
                return Mended::Byte {
                    refusal,
                    offset,
                    value,
                };
            }
        }
        changed[offset] = image[offset];
    }
    Mended::Unmended(refusal)
}

/// Where the register type bytes of an image stand that has records, lowest first.
pub fn register_types(image: &[u8]) -> Vec<usize> {
    let records = records(image).expect("an image that has records");
    let types = |placed: &Placed<Record>| match &placed.item {
        Record::Version(head) => {
            let first = placed.offset + HEAD + BEFORE_THE_TYPES;
            first..first + head.types.len()
        }
        _ => 0..0,
    };
    records.iter().flat_map(types).collect()
}
