//! The versions of a program, as those that call them see them.

use crate::fact::Fact;
use crate::random::Random;
use reference::bounds::{LISTED, VERSIONS_EACH};
use reference::program::Signature;
use reference::{Kind, Level, Mark, Type};

/// A version that may be called.
#[derive(Clone, Debug)]
pub struct Callable {
    /// The function's number.
    pub function: u8,
    /// The version's number.
    pub version: u8,
    /// What a call of it is judged by.
    pub signature: Signature,
    /// Its level.
    pub level: Level,
    /// About how many steps a call of it takes.
    pub cost: usize,
    /// What it is expected to give.
    pub gives: Fact,
}

/// The types of parameters, by how often they are wanted.
const PARAMETERS: [(usize, Type); 8] = [
    (34, Type::INTEGER),
    (12, Type::VALUE),
    (12, Type::ANY),
    (12, Type::VECTOR),
    (10, Type::OWNED),
    (9, Type::BORROWED),
    (7, Type::shared(Kind::QUIET)),
    (4, Type::shared(Kind::REFLECTIVE)),
];

/// The return types, by how often they are wanted.
const RETURNS: [(usize, Type); 4] = [
    (50, Type::INTEGER),
    (16, Type::VALUE),
    (14, Type::VECTOR),
    (20, Type::OWNED),
];

/// How the versions of a program get their levels.
#[derive(Clone, Copy, Debug)]
pub enum Levels {
    /// All have this one.
    One(Level),
    /// Each has any; those that are called mostly a low one, those that call a high one.
    Mixed,
}

impl Levels {
    /// Mostly mixed.
    pub fn any(random: &mut Random) -> Levels {
        let one = Levels::One(random.pick(&Level::ALL));
        random.weighted(&[(30, one), (70, Levels::Mixed)])
    }

    /// The level of a version that others call, or that calls them.
    pub fn level(self, random: &mut Random, calls: bool) -> Level {
        let [portal, staff, factory] = Level::ALL;
        match self {
            Levels::One(level) => level,
            Levels::Mixed if calls => random.weighted(&[(2, portal), (4, staff), (5, factory)]),
            Levels::Mixed => random.weighted(&[(6, portal), (4, staff), (3, factory)]),
        }
    }
}

/// Any mark.
fn mark(random: &mut Random) -> Mark {
    random.weighted(&[(60, Mark::QUIET), (40, Mark::REFLECTIVE)])
}

/// Any signature.
pub fn signature(random: &mut Random) -> Signature {
    let count = if random.one_in(12) {
        random.below(LISTED + 1)
    } else {
        random.below(5)
    };
    Signature {
        parameters: (0..count).map(|_| random.weighted(&PARAMETERS)).collect(),
        returns: random.weighted(&RETURNS),
        mark: mark(random),
    }
}

/// A signature that a DISPATCH could confuse with another: the same count and
/// ownerships, other kinds.
fn sibling(random: &mut Random, of: &Signature) -> Signature {
    let shared: Vec<Type> = Kind::ALL.map(Type::shared).to_vec();
    let mut parameters = of.parameters.clone();
    for parameter in parameters.iter_mut().filter(|p| p.is_shared()) {
        if random.percent(50) {
            *parameter = random.pick(&shared);
        }
    }
    let returns = if of.returns.is_shared() && random.percent(40) {
        random.pick(&[Type::INTEGER, Type::VALUE, Type::VECTOR])
    } else {
        of.returns
    };
    let mark = mark(random);
    Signature {
        parameters,
        returns,
        mark,
    }
}

/// The signatures of the versions of one function.
pub fn family(random: &mut Random, versions: Option<usize>) -> Vec<Signature> {
    let often = [(50, 1), (24, 2), (14, 3), (12, VERSIONS_EACH)];
    let count = versions.unwrap_or_else(|| random.weighted(&often));
    let first = signature(random);
    let mut family = vec![first];
    while family.len() < count {
        let next = if random.percent(70) {
            let known = random.pick(&family);
            sibling(random, &known)
        } else {
            signature(random)
        };
        family.push(next);
    }
    family
}

/// The signature without promise parameters, so that a run may begin there.
pub fn entered(signature: Signature) -> Signature {
    let parameter = |ty: Type| match ty.kind() {
        Kind::QUIET | Kind::REFLECTIVE => Type::INTEGER,
        _ => ty,
    };
    let parameters = signature.parameters.into_iter().map(parameter).collect();
    Signature {
        parameters,
        ..signature
    }
}
