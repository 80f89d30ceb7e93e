//! "Sixty-four bits": the two forms of an image, which differ in their literals
//! alone, and the two ranges of integers.

use crate::bounds::Integer;
use crate::kinds;

/// A form of images.
#[derive(Clone, Copy, PartialEq, Eq, Debug)]
pub enum Form {
    /// The form before: LIT is kind 16 with a 4-byte number.
    Narrow,
    /// The form in force: LIT is kind 36 with an 8-byte number.
    Wide,
}

impl Form {
    /// The kind of the form's literal.
    pub fn literal(self) -> u16 {
        match self {
            Form::Narrow => kinds::NARROW_LIT,
            Form::Wide => kinds::LIT,
        }
    }

    /// The other form.
    pub fn other(self) -> Form {
        match self {
            Form::Narrow => Form::Wide,
            Form::Wide => Form::Narrow,
        }
    }

    /// The integers that a literal of the form can hold.
    pub fn range(self) -> Range {
        match self {
            Form::Narrow => Range::NARROW,
            Form::Wide => Range::WIDE,
        }
    }

    /// The last bytes of a literal: its number, in as many bytes as the form's have;
    /// what they cannot hold is cut off.
    pub(crate) fn number_bytes(self, number: Integer) -> Vec<u8> {
        match self {
            Form::Narrow => (number as i32).to_le_bytes().to_vec(),
            Form::Wide => number.to_le_bytes().to_vec(),
        }
    }

    /// The number of a literal's last bytes; none if they are not as many as the
    /// form's numbers have.
    pub(crate) fn number(self, bytes: &[u8]) -> Option<Integer> {
        match self {
            Form::Narrow => Some(i32::from_le_bytes(bytes.try_into().ok()?).into()),
            Form::Wide => Some(Integer::from_le_bytes(bytes.try_into().ok()?)),
        }
    }
}

/// The integers that operations may give, ends included.
#[derive(Clone, Copy, PartialEq, Eq, Debug)]
pub struct Range {
    /// The least integer.
    pub least: Integer,
    /// The greatest integer.
    pub greatest: Integer,
}

impl Range {
    /// The range before: 32-bit signed.
    pub const NARROW: Range = Range {
        least: -2_147_483_648,
        greatest: 2_147_483_647,
    };
    /// The range in force: 64-bit signed.
    pub const WIDE: Range = Range {
        least: -9_223_372_036_854_775_808,
        greatest: 9_223_372_036_854_775_807,
    };

    /// The integer itself; none if it is out of range.
    pub fn ranged(self, integer: Integer) -> Option<Integer> {
        (self.least <= integer && integer <= self.greatest).then_some(integer)
    }
}
