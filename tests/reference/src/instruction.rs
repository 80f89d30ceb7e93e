//! "Image": the twenty instructions, their bytes, and the registers they name.

use crate::bounds::Integer;
use crate::form::Form;
use crate::kinds;
use crate::types::{Mark, Type};

/// The number of a register.
pub type Register = u8;
/// The number of a named variable.
pub type Name = u8;

/// An instruction with the fields that its record holds, in that order.
#[derive(Clone, PartialEq, Eq, Hash, Debug)]
#[allow(missing_docs)] // The fields are the paper's letters.
pub enum Instruction {
    /// 36: d takes a literal.
    Lit { d: Register, value: Integer },
    /// 17: d takes what a shared register holds.
    Move { d: Register, a: Register },
    /// 18: d takes the vector of an owned register, which is emptied.
    Use { d: Register, a: Register },
    /// 19: d takes a new vector with the items of another.
    Dup { d: Register, a: Register },
    /// 20: d takes a new vector of the listed integers.
    Vec { d: Register, items: Vec<Register> },
    /// 21: d takes the length of a vector.
    Len { d: Register, a: Register },
    /// 22: d takes the item at index i.
    Get {
        d: Register,
        a: Register,
        i: Register,
    },
    /// 23: the item at index i of an owned vector becomes e.
    Set {
        a: Register,
        i: Register,
        e: Register,
    },
    /// 24: d takes the result of an operation.
    Arith {
        d: Register,
        op: u8,
        a: Register,
        b: Register,
    },
    /// 25: d takes a if c is not 0, else b.
    Select {
        d: Register,
        c: Register,
        a: Register,
        b: Register,
    },
    /// 26: d takes what a holds, if it is of d's kind.
    Cast { d: Register, a: Register },
    /// 27: d takes what a named variable of the own frame holds.
    Named { d: Register, x: Name },
    /// 28: a named variable of the own frame takes what a holds.
    Store { x: Name, a: Register },
    /// 29: d takes a new promise of a block.
    Prom { d: Register, block: u8 },
    /// 30: d takes the integer of a promise.
    Force { d: Register, a: Register },
    /// 31: d takes what a named variable of the promise's frame holds.
    Peek { d: Register, a: Register, x: Name },
    /// 32: a named variable of the promise's frame takes what e holds.
    Poke { a: Register, x: Name, e: Register },
    /// 33: d takes the result of a call of one version.
    Call {
        d: Register,
        function: u8,
        version: u8,
        arguments: Vec<Register>,
    },
    /// 34: d takes the result of a call of the lowest version that fits.
    Dispatch {
        d: Register,
        function: u8,
        mark: Mark,
        returns: Type,
        arguments: Vec<(Type, Register)>,
    },
    /// 35: when a is 0, the next n instructions of the block are passed over.
    Skip { a: Register, n: u8 },
}

impl Instruction {
    /// The instruction of a record's kind and body in the form in force; none if
    /// the kind is no instruction or the body is not as long as its fields make it.
    pub fn read(kind: u16, body: &[u8]) -> Option<Instruction> {
        Instruction::read_in(Form::Wide, kind, body)
    }

    /// The same in a form.
    pub fn read_in(form: Form, kind: u16, body: &[u8]) -> Option<Instruction> {
        let instruction = match (kind, body) {
            (_, &[d, ref number @ ..]) if kind == form.literal() => Self::Lit {
                d,
                value: form.number(number)?,
            },
            (kinds::MOVE, &[d, a]) => Self::Move { d, a },
            (kinds::USE, &[d, a]) => Self::Use { d, a },
            (kinds::DUP, &[d, a]) => Self::Dup { d, a },
            (kinds::VEC, &[d, n, ref items @ ..]) if items.len() == n as usize => Self::Vec {
                d,
                items: items.to_vec(),
            },
            (kinds::LEN, &[d, a]) => Self::Len { d, a },
            (kinds::GET, &[d, a, i]) => Self::Get { d, a, i },
            (kinds::SET, &[a, i, e]) => Self::Set { a, i, e },
            (kinds::ARITH, &[d, op, a, b]) => Self::Arith { d, op, a, b },
            (kinds::SELECT, &[d, c, a, b]) => Self::Select { d, c, a, b },
            (kinds::CAST, &[d, a]) => Self::Cast { d, a },
            (kinds::NAMED, &[d, x]) => Self::Named { d, x },
            (kinds::STORE, &[x, a]) => Self::Store { x, a },
            (kinds::PROM, &[d, block]) => Self::Prom { d, block },
            (kinds::FORCE, &[d, a]) => Self::Force { d, a },
            (kinds::PEEK, &[d, a, x]) => Self::Peek { d, a, x },
            (kinds::POKE, &[a, x, e]) => Self::Poke { a, x, e },
            (kinds::CALL | kinds::DISPATCH, _) => return Self::read_call(kind, body),
            (kinds::SKIP, &[a, n]) => Self::Skip { a, n },
            _ => return None,
        };
        Some(instruction)
    }

    /// The CALL or DISPATCH of a body; none if the length is not that of its fields.
    fn read_call(kind: u16, body: &[u8]) -> Option<Instruction> {
        match (kind, body) {
            (kinds::CALL, &[d, function, version, n, ref registers @ ..])
                if registers.len() == n as usize =>
            {
                Some(Self::Call {
                    d,
                    function,
                    version,
                    arguments: registers.to_vec(),
                })
            }
            (kinds::DISPATCH, &[d, function, mark, returns, n, ref pairs @ ..])
                if pairs.len() == 2 * n as usize =>
            {
                Some(Self::Dispatch {
                    d,
                    function,
                    mark: Mark(mark),
                    returns: Type(returns),
                    arguments: pairs.chunks(2).map(|p| (Type(p[0]), p[1])).collect(),
                })
            }
            _ => None,
        }
    }

    /// The kind of the instruction's record in the form in force.
    pub fn kind(&self) -> u16 {
        match self {
            Self::Lit { .. } => kinds::LIT,
            Self::Move { .. } => kinds::MOVE,
            Self::Use { .. } => kinds::USE,
            Self::Dup { .. } => kinds::DUP,
            Self::Vec { .. } => kinds::VEC,
            Self::Len { .. } => kinds::LEN,
            Self::Get { .. } => kinds::GET,
            Self::Set { .. } => kinds::SET,
            Self::Arith { .. } => kinds::ARITH,
            Self::Select { .. } => kinds::SELECT,
            Self::Cast { .. } => kinds::CAST,
            Self::Named { .. } => kinds::NAMED,
            Self::Store { .. } => kinds::STORE,
            Self::Prom { .. } => kinds::PROM,
            Self::Force { .. } => kinds::FORCE,
            Self::Peek { .. } => kinds::PEEK,
            Self::Poke { .. } => kinds::POKE,
            Self::Call { .. } => kinds::CALL,
            Self::Dispatch { .. } => kinds::DISPATCH,
            Self::Skip { .. } => kinds::SKIP,
        }
    }

    /// The body of the instruction's record in the form in force.
    pub fn body(&self) -> Vec<u8> {
        match *self {
            Self::Lit { d, value } => [&[d][..], &value.to_le_bytes()].concat(),
            Self::Move { d, a }
            | Self::Use { d, a }
            | Self::Dup { d, a }
            | Self::Len { d, a }
            | Self::Cast { d, a }
            | Self::Force { d, a } => vec![d, a],
            Self::Vec { d, ref items } => [&[d, count(items)][..], items].concat(),
            Self::Get { d, a, i } => vec![d, a, i],
            Self::Set { a, i, e } => vec![a, i, e],
            Self::Arith { d, op, a, b } => vec![d, op, a, b],
            Self::Select { d, c, a, b } => vec![d, c, a, b],
            Self::Named { d, x } => vec![d, x],
            Self::Store { x, a } => vec![x, a],
            Self::Prom { d, block } => vec![d, block],
            Self::Peek { d, a, x } => vec![d, a, x],
            Self::Poke { a, x, e } => vec![a, x, e],
            Self::Call {
                d,
                function,
                version,
                ref arguments,
            } => [&[d, function, version, count(arguments)][..], arguments].concat(),
            Self::Dispatch {
                d,
                function,
                mark,
                returns,
                ref arguments,
            } => {
                let mut body = vec![d, function, mark.0, returns.0, count(arguments)];
                body.extend(arguments.iter().flat_map(|&(ty, r)| [ty.0, r]));
                body
            }
            Self::Skip { a, n } => vec![a, n],
        }
    }

    /// The registers that the instruction reads, in the order of its fields.
    pub fn reads(&self) -> Vec<Register> {
        match *self {
            Self::Lit { .. } | Self::Named { .. } | Self::Prom { .. } => vec![],
            Self::Move { a, .. }
            | Self::Use { a, .. }
            | Self::Dup { a, .. }
            | Self::Len { a, .. }
            | Self::Cast { a, .. }
            | Self::Store { a, .. }
            | Self::Force { a, .. }
            | Self::Peek { a, .. }
            | Self::Skip { a, .. } => vec![a],
            Self::Vec { ref items, .. } => items.clone(),
            Self::Get { a, i, .. } => vec![a, i],
            Self::Set { a, i, e } => vec![a, i, e],
            Self::Arith { a, b, .. } => vec![a, b],
            Self::Select { c, a, b, .. } => vec![c, a, b],
            Self::Poke { a, e, .. } => vec![a, e],
            Self::Call { ref arguments, .. } => arguments.clone(),
            Self::Dispatch { ref arguments, .. } => arguments.iter().map(|&(_, r)| r).collect(),
        }
    }

    /// The register that takes the instruction's result, which the paper calls d.
    pub fn destination(&self) -> Option<Register> {
        match *self {
            Self::Set { .. } | Self::Store { .. } | Self::Poke { .. } | Self::Skip { .. } => None,
            Self::Lit { d, .. }
            | Self::Move { d, .. }
            | Self::Use { d, .. }
            | Self::Dup { d, .. }
            | Self::Vec { d, .. }
            | Self::Len { d, .. }
            | Self::Get { d, .. }
            | Self::Arith { d, .. }
            | Self::Select { d, .. }
            | Self::Cast { d, .. }
            | Self::Named { d, .. }
            | Self::Prom { d, .. }
            | Self::Force { d, .. }
            | Self::Peek { d, .. }
            | Self::Call { d, .. }
            | Self::Dispatch { d, .. } => Some(d),
        }
    }

    /// The register that the instruction assigns: its d, or SET's a.
    pub fn assigns(&self) -> Option<Register> {
        match *self {
            Self::Set { a, .. } => Some(a),
            _ => self.destination(),
        }
    }

    /// The named variable that the instruction reads or writes.
    pub fn name(&self) -> Option<Name> {
        match *self {
            Self::Named { x, .. }
            | Self::Store { x, .. }
            | Self::Peek { x, .. }
            | Self::Poke { x, .. } => Some(x),
            _ => None,
        }
    }
}

/// The count field of a list of registers.
fn count<T>(listed: &[T]) -> u8 {
    u8::try_from(listed.len()).expect("a record lists at most 255 registers")
}
