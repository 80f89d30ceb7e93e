//! What the library answers, as plain enums.

use crate::constants::{
    FIR_ACCEPTED, FIR_AT_BLOCK_END, FIR_AT_INSTRUCTION, FIR_DEEP, FIR_FIRST_IMAGE, FIR_INTEGER,
    FIR_IS_INTEGER, FIR_IS_PROMISE, FIR_IS_VECTOR, FIR_LOADED, FIR_NOTHING, FIR_NOWHERE,
    FIR_OUTSIDE, FIR_PROMISES, FIR_REFUSED, FIR_REFUSED_JOIN, FIR_SECOND_IMAGE, FIR_SHORT,
    FIR_STEPS, FIR_STUCK, FIR_UNDEF, FIR_VECTOR, FIR_VECTORS, FIR_VERSIONS,
};
use crate::raw::{
    FirAnswer, FirEntry, FirJoined, FirLoaded, FirPosition, FirSaid, FirSearched, FirTurn,
    FirValue, FirVerdict,
};

/// A no: the question, and the offset of the first record that fails.
#[derive(Clone, Copy, PartialEq, Eq, Debug)]
pub struct Refusal {
    /// The question, 1 to 23.
    pub question: u8,
    /// The offset of the record; the image's length where records or, by 15, a
    /// version are missing.
    pub offset: usize,
}

/// What the questions put to an image say of it.
#[derive(Clone, Copy, PartialEq, Eq, Debug)]
pub enum Verdict {
    /// Yes to all.
    Accepted {
        /// How many versions the image has.
        versions: usize,
    },
    /// The first no.
    Refused(Refusal),
}

/// What became of a load.
#[derive(Clone, Copy, PartialEq, Eq, Debug)]
pub enum Loaded {
    /// The table is filled.
    Ready {
        /// How many versions the image has.
        versions: usize,
    },
    /// A question says no to the image.
    Refused(Refusal),
    /// The image is accepted, and its table is to have so many bytes.
    Short(usize),
}

/// Why two images are not joined.
#[derive(Clone, Copy, PartialEq, Eq, Debug)]
pub enum Unjoined {
    /// A question says no to the first image.
    First(Refusal),
    /// The first image is accepted, and a question says no to the second.
    Second(Refusal),
    /// Both are accepted, and 23 says no to the two together.
    Together(Refusal),
}

/// How a run ended.
#[derive(Clone, Copy, PartialEq, Eq, Debug)]
pub enum End {
    /// DONE with an integer.
    Integer(i64),
    /// DONE with a vector of so many items; a state that nobody began may say more than
    /// there are.
    Vector(usize),
    /// UNDEF.
    Undef,
    /// A 33rd activation was needed.
    Deep,
    /// A 65th vector was needed, or one more than the pool gave.
    Vectors,
    /// A 65th promise was needed.
    Promises,
}

/// What a single step says.
#[derive(Clone, Copy, PartialEq, Eq, Debug)]
pub enum Said {
    /// The run goes on.
    GoesOn,
    /// The run ended so, with this step or before it.
    Ended(End),
    /// The state is none of a begun run that this image is in force for; it is as
    /// it was.
    Stuck,
}

/// The answer to a budget.
#[derive(Clone, Copy, PartialEq, Eq, Debug)]
pub enum Answer {
    /// The budget is used up.
    Steps,
    /// The run ended so, under this budget or before it.
    Ended(End),
    /// The state is none of a begun run that this image is in force for.
    Stuck,
    /// Nothing was done: state and buffer are as they were.
    Refused(Refusal),
}

/// The answer to a budget, and the steps taken under it.
#[derive(Clone, Copy, PartialEq, Eq, Debug)]
pub struct Ran {
    /// The answer.
    pub answer: Answer,
    /// The steps taken.
    pub steps: u32,
}

/// What a register or a name holds.
#[derive(Clone, Copy, PartialEq, Eq, Debug)]
pub enum Held {
    /// Nothing.
    Nothing,
    /// An integer.
    Integer(i64),
    /// The vector at a place.
    Vector(usize),
    /// The promise at a place.
    Promise(usize),
}

/// What the search of a DISPATCH comes to.
#[derive(Clone, Copy, PartialEq, Eq, Debug)]
pub struct Search {
    /// How many versions it looks at: the number of the version that is called
    /// plus 1, or all of the function where none fits.
    pub looked: usize,
    /// How many versions the function has.
    pub versions: usize,
}

/// What a run stands at.
#[derive(Clone, Copy, PartialEq, Eq, Debug)]
pub enum At {
    /// An instruction.
    Instruction,
    /// The end of a block.
    BlockEnd,
}

/// Where a run stands in its image.
#[derive(Clone, Copy, PartialEq, Eq, Debug)]
pub struct Position {
    /// At an instruction, or at the end of a block.
    pub at: At,
    /// The function of the call that is worked on.
    pub function: u8,
    /// Its version.
    pub version: u8,
    /// The block.
    pub block: u8,
    /// The number of the instruction; at the end of the block how many it has.
    pub instruction: u8,
    /// The offset of the instruction's record; at the end of a block that of the
    /// BLOCK record.
    pub offset: usize,
}

impl Ran {
    /// Was it refused, so that nothing was done?
    pub fn is_refused(&self) -> bool {
        matches!(self.answer, Answer::Refused(_))
    }
}

impl From<FirVerdict> for Verdict {
    fn from(verdict: FirVerdict) -> Verdict {
        match verdict.question {
            FIR_ACCEPTED => Verdict::Accepted {
                versions: verdict.detail,
            },
            question => Verdict::Refused(Refusal {
                question,
                offset: verdict.detail,
            }),
        }
    }
}

impl From<FirLoaded> for Loaded {
    fn from(loaded: FirLoaded) -> Loaded {
        let detail = loaded.detail;
        match loaded.code {
            FIR_LOADED => Loaded::Ready { versions: detail },
            FIR_REFUSED => Loaded::Refused(Refusal {
                question: loaded.question,
                offset: detail,
            }),
            FIR_SHORT => Loaded::Short(detail),
            code => panic!("the library says {code} of a load, which fir.h does not list"),
        }
    }
}

impl From<FirVerdict> for Result<usize, Refusal> {
    fn from(moved: FirVerdict) -> Result<usize, Refusal> {
        match moved.question {
            FIR_ACCEPTED => Ok(moved.detail),
            question => Err(Refusal {
                question,
                offset: moved.detail,
            }),
        }
    }
}

impl From<FirJoined> for Result<usize, Unjoined> {
    fn from(joined: FirJoined) -> Result<usize, Unjoined> {
        let FirJoined {
            detail,
            question,
            image,
        } = joined;
        let refusal = Refusal {
            question,
            offset: detail,
        };
        match (question, image) {
            (FIR_ACCEPTED, 0) => Ok(detail),
            (FIR_REFUSED_JOIN, 0) => Err(Unjoined::Together(refusal)),
            (1.., FIR_FIRST_IMAGE) => Err(Unjoined::First(refusal)),
            (1.., FIR_SECOND_IMAGE) => Err(Unjoined::Second(refusal)),
            _ => panic!("the library says {question} of image {image}, which fir.h does not list"),
        }
    }
}

impl From<FirEntry> for Result<(), Refusal> {
    fn from(entry: FirEntry) -> Result<(), Refusal> {
        match entry.question {
            FIR_ACCEPTED => Ok(()),
            question => Err(Refusal {
                question,
                offset: entry.offset.into(),
            }),
        }
    }
}

impl From<FirSaid> for Said {
    fn from(said: FirSaid) -> Said {
        match said.code {
            FIR_STEPS => Said::GoesOn,
            FIR_STUCK => Said::Stuck,
            code => Said::Ended(end(code, said.length, said.value)),
        }
    }
}

impl From<FirTurn> for Result<Said, Refusal> {
    fn from(turn: FirTurn) -> Result<Said, Refusal> {
        let FirTurn {
            value,
            offset,
            code,
            length,
            question,
        } = turn;
        if code == FIR_REFUSED {
            let offset = offset.into();
            return Err(Refusal { question, offset });
        }
        Ok(Said::from(FirSaid {
            value,
            code,
            length,
        }))
    }
}

impl From<FirAnswer> for Ran {
    fn from(ran: FirAnswer) -> Ran {
        let answer = match ran.code {
            FIR_STEPS => Answer::Steps,
            FIR_STUCK => Answer::Stuck,
            FIR_REFUSED => Answer::Refused(Refusal {
                question: ran.question,
                offset: ran.offset.into(),
            }),
            code => Answer::Ended(end(code, ran.length, ran.value)),
        };
        let steps = ran.steps;
        Ran { answer, steps }
    }
}

impl From<FirValue> for Option<Held> {
    fn from(value: FirValue) -> Option<Held> {
        match value.kind {
            FIR_NOTHING => Some(Held::Nothing),
            FIR_IS_INTEGER => Some(Held::Integer(value.number)),
            FIR_IS_VECTOR => Some(Held::Vector(value.place.into())),
            FIR_IS_PROMISE => Some(Held::Promise(value.place.into())),
            FIR_OUTSIDE => None,
            kind => panic!("the library gives a value of kind {kind}, which fir.h does not list"),
        }
    }
}

impl From<FirSearched> for Option<Search> {
    fn from(searched: FirSearched) -> Option<Search> {
        let (looked, versions) = (searched.looked.into(), searched.versions.into());
        match searched.dispatch {
            0 => None,
            1 if looked <= versions && versions <= FIR_VERSIONS => {
                Some(Search { looked, versions })
            }
            _ => panic!("the library looks at {looked} of {versions}, which fir.h does not allow"),
        }
    }
}

impl From<FirPosition> for Option<Position> {
    fn from(position: FirPosition) -> Option<Position> {
        let at = match position.kind {
            FIR_NOWHERE => return None,
            FIR_AT_INSTRUCTION => At::Instruction,
            FIR_AT_BLOCK_END => At::BlockEnd,
            kind => panic!("the library says {kind} of a position, which fir.h does not list"),
        };
        Some(Position {
            at,
            function: position.function,
            version: position.version,
            block: position.block,
            instruction: position.instruction,
            offset: position.offset,
        })
    }
}

/// The end of a code, its length and its value.
fn end(code: u8, length: u8, value: i64) -> End {
    let length = usize::from(length);
    match code {
        FIR_INTEGER => End::Integer(value),
        FIR_VECTOR => End::Vector(length),
        FIR_UNDEF => End::Undef,
        FIR_DEEP => End::Deep,
        FIR_VECTORS => End::Vectors,
        FIR_PROMISES => End::Promises,
        _ => panic!("the library answers {code}, which fir.h does not list"),
    }
}
