//! What a generator expects a register or a name to hold when the program runs.
//!
//! Facts are hints that keep runs going; that an image is accepted never depends on them.

use reference::{Kind, Mark, Type};

/// An expectation.
#[derive(Clone, Copy, PartialEq, Eq, Debug)]
pub enum Fact {
    /// Nothing is expected.
    Unknown,
    /// An integer from low to high.
    Integer {
        /// The least.
        low: i64,
        /// The greatest.
        high: i64,
    },
    /// A vector of this length.
    Vector {
        /// The length.
        length: usize,
    },
    /// A promise.
    Promise {
        /// The mark of its block.
        mark: Mark,
        /// Is its frame the one that is being written?
        own: bool,
        /// The names that are set in its frame, one bit each.
        names: u8,
    },
}

impl Fact {
    /// An integer of moderate size.
    pub const MODERATE: Fact = Fact::Integer {
        low: -1000,
        high: 1000,
    };

    /// Exactly this integer.
    pub fn exactly(integer: i64) -> Fact {
        Fact::Integer {
            low: integer,
            high: integer,
        }
    }

    /// What a register of this type is expected to hold when nothing is known.
    pub fn of_type(ty: Type) -> Fact {
        match ty.kind() {
            Kind::INTEGER => Fact::MODERATE,
            Kind::VECTOR => Fact::Vector { length: 0 },
            Kind::QUIET => Fact::promise(Mark::QUIET),
            Kind::REFLECTIVE => Fact::promise(Mark::REFLECTIVE),
            _ => Fact::Unknown,
        }
    }

    /// A promise on a frame of which nothing is known.
    fn promise(mark: Mark) -> Fact {
        Fact::Promise {
            mark,
            own: false,
            names: 0,
        }
    }

    /// The kind that is expected, if any is.
    pub fn kind(self) -> Option<Kind> {
        match self {
            Fact::Unknown => None,
            Fact::Integer { .. } => Some(Kind::INTEGER),
            Fact::Vector { .. } => Some(Kind::VECTOR),
            Fact::Promise { mark, .. } => Some(mark.promise()),
        }
    }

    /// The range that is expected of an integer.
    pub fn range(self) -> (i64, i64) {
        match self {
            Fact::Integer { low, high } => (low, high),
            _ => Fact::MODERATE.range(),
        }
    }

    /// What is expected where either may be.
    pub fn or(self, other: Fact) -> Fact {
        match (self, other) {
            (Fact::Integer { low, high }, Fact::Integer { low: l, high: h }) => Fact::Integer {
                low: low.min(l),
                high: high.max(h),
            },
            (Fact::Vector { length }, Fact::Vector { length: other }) => Fact::Vector {
                length: length.min(other),
            },
            _ if self == other => self,
            _ => Fact::Unknown,
        }
    }
}
