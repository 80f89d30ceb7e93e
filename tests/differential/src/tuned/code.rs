//! The instructions of all versions in one list, decoded.

use reference::bounds::{LISTED, REGISTERS};
use reference::program::{Block, Program, Version};
use reference::{kinds, Instruction, Kind, Register, Type};

/// An instruction or a block end, of 8 bytes.
#[derive(Clone, Copy)]
#[allow(missing_docs)] // The fields are the paper's letters.
pub enum Op {
    /// LIT; the number of its integer.
    Lit {
        d: u8,
        literal: u16,
    },
    /// MOVE, STORE, or a CAST that no value fails.
    Copy {
        d: u8,
        a: u8,
    },
    Use {
        d: u8,
        a: u8,
    },
    Dup {
        d: u8,
        a: u8,
    },
    /// VEC; the number of its list.
    Vec {
        d: u8,
        n: u8,
        list: u16,
    },
    Len {
        d: u8,
        a: u8,
    },
    Get {
        d: u8,
        a: u8,
        i: u8,
    },
    Set {
        a: u8,
        i: u8,
        e: u8,
    },
    Add {
        d: u8,
        a: u8,
        b: u8,
    },
    Subtract {
        d: u8,
        a: u8,
        b: u8,
    },
    Multiply {
        d: u8,
        a: u8,
        b: u8,
    },
    Divide {
        d: u8,
        a: u8,
        b: u8,
    },
    Less {
        d: u8,
        a: u8,
        b: u8,
    },
    Select {
        d: u8,
        c: u8,
        a: u8,
        b: u8,
    },
    /// CAST; the kinds that pass, one bit each.
    Cast {
        d: u8,
        a: u8,
        kinds: u8,
    },
    Named {
        d: u8,
        x: u8,
    },
    /// PROM; the kind of the promise, and where its block stands.
    Prom {
        d: u8,
        kind: u8,
        block: u32,
    },
    Force {
        d: u8,
        a: u8,
    },
    Peek {
        d: u8,
        a: u8,
        x: u8,
    },
    Poke {
        a: u8,
        x: u8,
        e: u8,
    },
    /// CALL; the number of its site.
    Call {
        d: u8,
        site: u16,
    },
    /// DISPATCH; the numbers of its candidates' sites.
    Dispatch {
        d: u8,
        first: u16,
        last: u16,
    },
    Skip {
        a: u8,
        n: u8,
    },
    /// The end of a block 0.
    Return {
        result: u8,
    },
    /// The end of a promise block.
    Forced {
        result: u8,
    },
}

const _: () = assert!(size_of::<Op>() == 8);

/// A version that a CALL enters or a DISPATCH may enter, with the arguments.
#[derive(Clone, Copy)]
pub struct Site {
    /// Where its block 0 stands.
    pub entry: u32,
    /// How many arguments there are.
    pub count: u8,
    /// The registers given.
    pub arguments: [u8; LISTED],
    /// The arguments whose registers are emptied, one bit each.
    pub emptied: u8,
    /// How many arguments are to be looked at.
    pub checks: u8,
    /// A register and the kinds that its value may have, one bit each.
    pub checked: [(u8, u8); LISTED],
}

/// The places for instructions and block ends: a power of two, so that a place is a mask
/// away, and more than an image has records.
pub const OPS: usize = 8192;

/// The decoded instructions of a program.
pub struct Code {
    /// The instructions, and behind them a place for each that no image has.
    pub(super) ops: Box<[Op; OPS]>,
    pub(super) sites: Vec<Site>,
    /// The integers of literals.
    pub(super) literals: Vec<i64>,
    /// The registers that VECs list.
    pub(super) lists: Vec<[u8; LISTED]>,
    /// Where each block of each version stands.
    blocks: Vec<Vec<u32>>,
}

impl Code {
    /// The code of an accepted program.
    pub fn new(program: &Program) -> Code {
        let mut code = Code {
            ops: Box::new([Op::Return { result: 0 }; OPS]),
            sites: Vec::new(),
            literals: Vec::new(),
            lists: Vec::new(),
            blocks: block_places(program),
        };
        let mut next = 0;
        for (index, version) in program.versions.iter().enumerate() {
            for (number, block) in version.blocks.iter().enumerate() {
                for op in code.block(program, index, version, number, block) {
                    code.ops[next] = op;
                    next += 1;
                }
            }
        }
        code
    }

    /// Where block 0 of the version of these numbers stands, if it exists.
    pub(super) fn entry(&self, program: &Program, function: u8, version: u8) -> Option<u32> {
        let numbers = (function, version);
        let mut versions = program.versions.iter();
        let index = versions.position(|v| (v.head.function, v.head.version) == numbers)?;
        Some(self.blocks[index][0])
    }

    /// The instructions of a block and its end.
    fn block(
        &mut self,
        program: &Program,
        index: usize,
        version: &Version,
        number: usize,
        block: &Block,
    ) -> Vec<Op> {
        let mut ops = Vec::new();
        for placed in &block.instructions {
            ops.push(match placed.item {
                Instruction::Lit { d, value } => self.literal(d, value),
                Instruction::Vec { d, ref items } => self.list(d, items),
                Instruction::Prom { d, block } => self.prom(index, version, d, block),
                Instruction::Call { .. } | Instruction::Dispatch { .. } => {
                    self.call(program, version, &placed.item)
                }
                ref instruction => plain(version, instruction),
            });
        }
        let result = block.head.result;
        ops.push(match number {
            0 => Op::Return { result },
            _ => Op::Forced { result },
        });
        ops
    }

    /// A LIT.
    fn literal(&mut self, d: Register, value: i64) -> Op {
        self.literals.push(value);
        let literal = (self.literals.len() - 1) as u16;
        Op::Lit { d, literal }
    }

    /// A VEC.
    fn list(&mut self, d: Register, items: &[Register]) -> Op {
        self.lists.push(listed(items));
        let (n, list) = (items.len() as u8, (self.lists.len() - 1) as u16);
        Op::Vec { d, n, list }
    }

    /// A PROM.
    fn prom(&self, index: usize, version: &Version, d: Register, block: u8) -> Op {
        let block = usize::from(block);
        Op::Prom {
            d,
            kind: version.blocks[block].head.mark.promise().0,
            block: self.blocks[index][block],
        }
    }

    /// A CALL or DISPATCH, with the sites of the versions that it may enter.
    fn call(&mut self, program: &Program, version: &Version, instruction: &Instruction) -> Op {
        let d = instruction.destination().expect("a call has a d");
        let first = self.sites.len() as u16;
        if let Instruction::Dispatch { function, .. } = *instruction {
            let candidates = program.versions_of(function.into());
            for candidate in candidates.filter(|c| may_fit(program, version, instruction, c)) {
                let site = self.site(program, version, instruction, candidate);
                self.sites.push(site);
            }
            let last = self.sites.len() as u16;
            return Op::Dispatch { d, first, last };
        }
        let Instruction::Call {
            function,
            version: number,
            ..
        } = *instruction
        else {
            unreachable!("a CALL or a DISPATCH");
        };
        let called = program.version(function.into(), number.into());
        let called = called.expect("the version called exists");
        let site = self.site(program, version, instruction, called);
        self.sites.push(site);
        Op::Call { d, site: first }
    }

    /// The site of a call that enters a version.
    fn site(
        &self,
        program: &Program,
        caller: &Version,
        instruction: &Instruction,
        entered: &Version,
    ) -> Site {
        let reads = instruction.reads();
        let mut site = Site {
            entry: self
                .entry(program, entered.head.function, entered.head.version)
                .expect("the version exists"),
            count: reads.len() as u8,
            arguments: listed(&reads),
            emptied: 0,
            checks: 0,
            checked: [(0, 0); LISTED],
        };
        for (place, (&register, parameter)) in reads.iter().zip(entered.parameters()).enumerate() {
            site.emptied |= u8::from(parameter.is_owned()) << place;
            if !caller.type_of(register).kind().within(parameter.kind()) {
                site.checked[usize::from(site.checks)] = (register, kinds_within(*parameter));
                site.checks += 1;
            }
        }
        site
    }
}

/// Where each block of each version will stand; a block takes one more place
/// than it has instructions.
fn block_places(program: &Program) -> Vec<Vec<u32>> {
    let mut next = 0;
    let mut place = |block: &Block| {
        let place = next;
        next += block.instructions.len() as u32 + 1;
        place
    };
    let versions = program.versions.iter();
    versions
        .map(|version| version.blocks.iter().map(&mut place).collect())
        .collect()
}

/// Is the candidate of a DISPATCH not above the level of the version that holds it, and
/// has it equal parameter count and ownerships, equal return ownership, a return within,
/// and a mark no greater?
fn may_fit(
    program: &Program,
    holder: &Version,
    dispatch: &Instruction,
    candidate: &Version,
) -> bool {
    let signature = program.signature(dispatch).expect("a DISPATCH has one");
    let own = candidate.signature();
    let ownerships = |types: &[Type]| types.iter().map(|ty| ty.ownership()).collect::<Vec<_>>();
    candidate.level <= holder.level
        && ownerships(&own.parameters) == ownerships(&signature.parameters)
        && own.returns.ownership() == signature.returns.ownership()
        && own.returns.kind().within(signature.returns.kind())
        && own.mark <= signature.mark
}

/// The kinds within that of a type, one bit each.
fn kinds_within(ty: Type) -> u8 {
    let kinds = Kind::ALL.into_iter();
    kinds
        .filter(|kind| kind.within(ty.kind()))
        .fold(0, |bits, kind| bits | 1 << kind.0)
}

/// Registers in the places of a list.
fn listed(registers: &[Register]) -> [u8; LISTED] {
    let mut list = [0; LISTED];
    list[..registers.len()].copy_from_slice(registers);
    list
}

/// An instruction that is neither LIT, VEC, PROM, CALL nor DISPATCH.
fn plain(version: &Version, instruction: &Instruction) -> Op {
    use Instruction as I;
    match *instruction {
        I::Move { d, a } => Op::Copy { d, a },
        I::Use { d, a } => Op::Use { d, a },
        I::Dup { d, a } => Op::Dup { d, a },
        I::Len { d, a } => Op::Len { d, a },
        I::Get { d, a, i } => Op::Get { d, a, i },
        I::Set { a, i, e } => Op::Set { a, i, e },
        I::Arith { d, op, a, b } => arith(d, op, a, b),
        I::Select { d, c, a, b } => Op::Select { d, c, a, b },
        I::Cast { d, a } => cast(version, d, a),
        I::Named { d, x } => Op::Named { d, x: name(x) },
        I::Store { x, a } => Op::Copy { d: name(x), a },
        I::Force { d, a } => Op::Force { d, a },
        I::Peek { d, a, x } => Op::Peek { d, a, x: name(x) },
        I::Poke { a, x, e } => Op::Poke { a, x: name(x), e },
        I::Skip { a, n } => Op::Skip { a, n },
        I::Lit { .. } | I::Vec { .. } | I::Prom { .. } | I::Call { .. } | I::Dispatch { .. } => {
            unreachable!("these are decoded elsewhere")
        }
    }
}

/// The place of a name in its frame.
fn name(x: u8) -> u8 {
    REGISTERS as u8 + x
}

/// An ARITH.
fn arith(d: u8, op: u8, a: u8, b: u8) -> Op {
    match op {
        kinds::ADD => Op::Add { d, a, b },
        kinds::SUBTRACT => Op::Subtract { d, a, b },
        kinds::MULTIPLY => Op::Multiply { d, a, b },
        kinds::DIVIDE => Op::Divide { d, a, b },
        kinds::LESS => Op::Less { d, a, b },
        _ => unreachable!("an accepted image has no other operation"),
    }
}

/// A CAST, which is a plain copy where the declared kinds decide that it passes.
fn cast(version: &Version, d: Register, a: Register) -> Op {
    let (to, from) = (version.type_of(d), version.type_of(a));
    if from.kind().within(to.kind()) {
        return Op::Copy { d, a };
    }
    let kinds = kinds_within(to);
    Op::Cast { d, a, kinds }
}
