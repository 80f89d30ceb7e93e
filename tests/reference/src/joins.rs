//! "Two images into one": the joined image, and question 23.

use crate::bounds::{FUNCTIONS, MAX_IMAGE, VERSIONS};
use crate::instruction::Instruction;
use crate::program::Program;
use crate::questions::{records, Refusal};
use crate::record::{Record, VersionRecord};

/// Why two images are not joined.
#[derive(Clone, Copy, PartialEq, Eq, Debug)]
pub enum Unjoined {
    /// A question says no to the first image.
    First(Refusal),
    /// The first image is accepted, and a question says no to the second.
    Second(Refusal),
    /// Both are accepted, and 23 says no to the two together.
    Together(Refusal),
}

/// A bound that a joined image has to keep.
#[derive(Clone, Copy, PartialEq, Eq, PartialOrd, Ord, Debug)]
pub enum Bound {
    /// 32,768 bytes.
    Bytes,
    /// 32 functions.
    Functions,
    /// 64 versions.
    Versions,
    /// The places of the lent buffer.
    Buffer,
}

/// How much of what the layout bounds an accepted image has.
#[derive(Clone, Copy, PartialEq, Eq, Debug)]
pub struct Sizes {
    /// Its bytes.
    pub bytes: usize,
    /// Its functions.
    pub functions: usize,
    /// Its versions.
    pub versions: usize,
}

impl Sizes {
    /// The sizes of an accepted image, which has this program.
    pub fn of(image: &[u8], program: &Program) -> Sizes {
        Sizes {
            bytes: image.len(),
            functions: functions(program),
            versions: program.versions.len(),
        }
    }

    /// The sizes of two images together.
    pub fn with(self, other: Sizes) -> Sizes {
        Sizes {
            bytes: self.bytes + other.bytes,
            functions: self.functions + other.functions,
            versions: self.versions + other.versions,
        }
    }

    /// The bounds that an image of these sizes breaks, with a buffer of so many places.
    pub fn broken(self, places: usize) -> Vec<Bound> {
        let bounds = [
            (self.bytes > MAX_IMAGE, Bound::Bytes),
            (self.functions > FUNCTIONS, Bound::Functions),
            (self.versions > VERSIONS, Bound::Versions),
            (self.bytes > places, Bound::Buffer),
        ];
        let broken = bounds.into_iter().filter(|(breaks, _)| *breaks);
        broken.map(|(_, bound)| bound).collect()
    }
}

/// How many functions an accepted image has.
pub fn functions(program: &Program) -> usize {
    let numbers = program.versions.iter();
    let numbers = numbers.map(|version| usize::from(version.head.function));
    numbers.max().map_or(0, |last| last + 1)
}

/// The bytes of two images joined, for a buffer of so many places, or the first no:
/// of the first image's questions, then of the second's, then 23.
pub fn join(first: &[u8], second: &[u8], places: usize) -> Result<Vec<u8>, Unjoined> {
    let own = Program::accept(first).map_err(Unjoined::First)?;
    let other = Program::accept(second).map_err(Unjoined::Second)?;
    let sizes = [Sizes::of(first, &own), Sizes::of(second, &other)];
    join_accepted([first, second], sizes, places)
}

/// The same of two accepted images, which have these sizes.
pub fn join_accepted(
    [first, second]: [&[u8]; 2],
    [own, other]: [Sizes; 2],
    places: usize,
) -> Result<Vec<u8>, Unjoined> {
    if !own.with(other).broken(places).is_empty() {
        return Err(Unjoined::Together(Refusal {
            number: 23,
            offset: 0,
        }));
    }
    Ok([first, &following(second, own.functions)].concat())
}

/// The bytes of an accepted image whose functions follow so many others.
fn following(image: &[u8], others: usize) -> Vec<u8> {
    let others = u8::try_from(others).expect("an image has at most 32 functions");
    let records = records(image).expect("an accepted image has records");
    let renumbered = records.into_iter();
    let renumbered = renumbered.map(|placed| renumber(placed.item, others));
    renumbered.flat_map(|record| record.bytes()).collect()
}

/// A record whose function, if it names one, follows so many others.
fn renumber(record: Record, others: u8) -> Record {
    match record {
        Record::Version(version) => Record::Version(VersionRecord {
            function: version.function + others,
            ..version
        }),
        Record::Instruction(instruction) => Record::Instruction(renumber_call(instruction, others)),
        record => record,
    }
}

/// An instruction whose function, if it names one, follows so many others.
fn renumber_call(mut instruction: Instruction, others: u8) -> Instruction {
    match &mut instruction {
        Instruction::Call { function, .. } | Instruction::Dispatch { function, .. } => {
            *function += others;
        }
        _ => {}
    }
    instruction
}
