//! Integers at and around the ends of both ranges, and operations whose results
//! stand there.

use crate::random::Random;
use reference::{kinds, Integer, Range};

/// An operation of ARITH with its operands.
#[derive(Clone, Copy, PartialEq, Eq, Debug)]
pub struct Operation {
    /// Its number.
    pub op: u8,
    /// The first operand.
    pub a: Integer,
    /// The second operand.
    pub b: Integer,
}

/// An integer at most two away from an end of either range.
pub fn integer(random: &mut Random) -> Integer {
    let range = random.pick(&[Range::NARROW, Range::WIDE]);
    let end = random.pick(&[range.least, range.greatest]);
    let by = random.between(-2, 2);
    end.checked_add(by).unwrap_or(end)
}

/// An operation whose result is the last to fit a range, or the first that does not.
pub fn operation(random: &mut Random, range: Range, fits: bool) -> Operation {
    match random.below(10) {
        0 | 1 => sum(random, range, fits),
        2 | 3 => difference(random, range, fits),
        4 | 5 => least(random, range, fits),
        _ => product(random, range, fits),
    }
}

/// A sum at an end.
fn sum(random: &mut Random, range: Range, fits: bool) -> Operation {
    let Operation { a, b, .. } = difference(random, range, fits);
    let (op, b) = (kinds::ADD, -b);
    random.pick(&[Operation { op, a, b }, Operation { op, a: b, b: a }])
}

/// A difference at an end; its b is not the least integer.
fn difference(random: &mut Random, range: Range, fits: bool) -> Operation {
    let far = random.between(10, range.greatest - 1);
    let small = random.between(0, 9);
    let by = random.pick(&[small, far]);
    let past = by + Integer::from(!fits);
    let (a, b) = if random.one_in(2) {
        (range.greatest - by, -past)
    } else {
        (range.least + by, past)
    };
    let op = kinds::SUBTRACT;
    Operation { op, a, b }
}

/// The least integer times 1, or −1, either way round, or divided by it.
fn least(random: &mut Random, range: Range, fits: bool) -> Operation {
    let (a, b) = (range.least, if fits { 1 } else { -1 });
    let (multiply, divide) = (kinds::MULTIPLY, kinds::DIVIDE);
    let (op, a, b) = random.pick(&[(multiply, a, b), (multiply, b, a), (divide, a, b)]);
    Operation { op, a, b }
}

/// A product at an end, of operands of any signs, neither of them 1 in size.
fn product(random: &mut Random, range: Range, fits: bool) -> Operation {
    let root = range.greatest.isqrt();
    let few = random.between(2, 9);
    let about = root + random.between(-2, 2);
    let power = 1 << random.between(1, i64::from(root.ilog2()));
    let any = random.between(2, range.greatest / 3);
    let size = random.pick(&[few, about, power, any]);
    let (sign_a, sign_b) = (random.pick(&[1, -1]), random.pick(&[1, -1]));
    let end = if sign_a == sign_b {
        range.greatest
    } else {
        range.least
    };
    let fitting = (end / size).abs();
    let other = fitting + Integer::from(!fits);
    Operation {
        op: kinds::MULTIPLY,
        a: sign_a * other,
        b: sign_b * size,
    }
}
