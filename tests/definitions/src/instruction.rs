//! The instruction that a kind and the bytes behind it make, whatever they are.

/// The kinds of instructions, by number.
#[allow(missing_docs)] // Each has the name of its instruction.
pub mod kind {
    pub const MOVE: u8 = 17;
    pub const USE: u8 = 18;
    pub const DUP: u8 = 19;
    pub const VEC: u8 = 20;
    pub const LEN: u8 = 21;
    pub const GET: u8 = 22;
    pub const SET: u8 = 23;
    pub const ARITH: u8 = 24;
    pub const SELECT: u8 = 25;
    pub const CAST: u8 = 26;
    pub const NAMED: u8 = 27;
    pub const STORE: u8 = 28;
    pub const PROM: u8 = 29;
    pub const FORCE: u8 = 30;
    pub const PEEK: u8 = 31;
    pub const POKE: u8 = 32;
    pub const CALL: u8 = 33;
    pub const DISPATCH: u8 = 34;
    pub const SKIP: u8 = 35;
}

/// The most registers that an instruction lists.
const LISTED: usize = 8;

/// The bytes of a literal's number.
const NUMBER: usize = 8;

/// An instruction; numbers of registers, names, blocks and versions are those of its bytes.
#[derive(Clone, PartialEq, Eq, Debug)]
#[allow(missing_docs)] // The fields are the paper's letters.
pub enum Instruction {
    Lit {
        d: u8,
        value: i64,
    },
    Move {
        d: u8,
        a: u8,
    },
    Use {
        d: u8,
        a: u8,
    },
    Dup {
        d: u8,
        a: u8,
    },
    Vec {
        d: u8,
        items: Vec<u8>,
    },
    Len {
        d: u8,
        a: u8,
    },
    Get {
        d: u8,
        a: u8,
        i: u8,
    },
    Set {
        a: u8,
        i: u8,
        e: u8,
    },
    Arith {
        d: u8,
        op: u8,
        a: u8,
        b: u8,
    },
    Select {
        d: u8,
        c: u8,
        a: u8,
        b: u8,
    },
    Cast {
        d: u8,
        a: u8,
    },
    Named {
        d: u8,
        x: u8,
    },
    Store {
        x: u8,
        a: u8,
    },
    Prom {
        d: u8,
        block: u8,
    },
    Force {
        d: u8,
        a: u8,
    },
    Peek {
        d: u8,
        a: u8,
        x: u8,
    },
    Poke {
        a: u8,
        x: u8,
        e: u8,
    },
    Call {
        d: u8,
        function: u8,
        version: u8,
        registers: Vec<u8>,
    },
    Dispatch {
        d: u8,
        function: u8,
        mark: u8,
        returns: u8,
        pairs: Vec<(u8, u8)>,
    },
    Skip {
        a: u8,
        n: u8,
    },
}

/// The byte at a place; 0 where there is none.
pub fn byte(bytes: &[u8], place: usize) -> u8 {
    bytes.get(place).copied().unwrap_or(0)
}

/// Does an instruction of this kind fit a record of the table with all its fields?
pub fn is_short(kind: u8) -> bool {
    let long = [kind::VEC, kind::CALL, kind::DISPATCH];
    (kind::MOVE..=kind::SKIP).contains(&kind) && !long.contains(&kind)
}

impl Instruction {
    /// The instruction of a short kind, whose fields stand from a place on.
    pub fn short(kind: u8, bytes: &[u8], from: usize) -> Instruction {
        let [d, a, b, c] = [0, 1, 2, 3].map(|field| byte(bytes, from + field));
        match kind {
            kind::MOVE => Instruction::Move { d, a },
            kind::USE => Instruction::Use { d, a },
            kind::DUP => Instruction::Dup { d, a },
            kind::LEN => Instruction::Len { d, a },
            kind::GET => Instruction::Get { d, a, i: b },
            kind::SET => Instruction::Set { a: d, i: a, e: b },
            kind::ARITH => Instruction::Arith {
                d,
                op: a,
                a: b,
                b: c,
            },
            kind::SELECT => Instruction::Select {
                d,
                c: a,
                a: b,
                b: c,
            },
            kind::CAST => Instruction::Cast { d, a },
            kind::NAMED => Instruction::Named { d, x: a },
            kind::STORE => Instruction::Store { x: d, a },
            kind::PROM => Instruction::Prom { d, block: a },
            kind::FORCE => Instruction::Force { d, a },
            kind::PEEK => Instruction::Peek { d, a, x: b },
            kind::POKE => Instruction::Poke { a: d, x: a, e: b },
            kind::SKIP => Instruction::Skip { a: d, n: a },
            _ => unreachable!("{kind} is no short kind"),
        }
    }

    /// The instruction of any other kind: of those that list registers at most 8 count,
    /// and all that are none of them are literals.
    pub fn long(kind: u8, bytes: &[u8], from: usize) -> Instruction {
        let field = |number: usize| byte(bytes, from + number);
        let few = |number: usize| usize::from(field(number)).min(LISTED);
        match kind {
            kind::VEC => Instruction::Vec {
                d: field(0),
                items: (0..few(1)).map(|item| field(2 + item)).collect(),
            },
            kind::CALL => Instruction::Call {
                d: field(0),
                function: field(1),
                version: field(2),
                registers: (0..few(3)).map(|register| field(4 + register)).collect(),
            },
            kind::DISPATCH => Instruction::Dispatch {
                d: field(0),
                function: field(1),
                mark: field(2),
                returns: field(3),
                pairs: (0..few(4))
                    .map(|pair| (field(5 + 2 * pair), field(6 + 2 * pair)))
                    .collect(),
            },
            _ => {
                let mut number = [0; NUMBER];
                for (place, byte) in number.iter_mut().enumerate() {
                    *byte = field(1 + place);
                }
                Instruction::Lit {
                    d: field(0),
                    value: i64::from_le_bytes(number),
                }
            }
        }
    }
}
