//! The growth of one accepted version: types, marks and flow are kept while it grows.

mod calls;
mod finish;
mod misfits;
mod names;
mod plain;
mod promises;
mod registers;
mod skips;
mod traps;
mod vectors;

pub use traps::Trap;

use crate::draft::{DraftBlock, DraftVersion};
use crate::fact::Fact;
use crate::random::Random;
use crate::registers::Registers;
use crate::world::Callable;
use reference::bounds::{INSTRUCTIONS, NAMES, REGISTERS};
use reference::kinds;
use reference::program::Signature;
use reference::{Instruction, Level, Register, Type};

/// How a version is to grow.
#[derive(Clone, Debug)]
pub struct Wish {
    /// The function's number.
    pub function: u8,
    /// The version's number.
    pub version: u8,
    /// Its signature.
    pub signature: Signature,
    /// Its level.
    pub level: Level,
    /// About how many instructions each block has.
    pub length: usize,
    /// The most blocks it has.
    pub blocks: usize,
    /// The most registers it has.
    pub registers: usize,
    /// The most steps that a call of it should take.
    pub cost: usize,
    /// What it is to make UNDEF by.
    pub trap: Option<Trap>,
    /// The versions that its body is to call, where its mark and its level cover theirs.
    pub must_call: Vec<Callable>,
}

/// What a version became, and what calls of it are like.
pub struct Grown {
    /// The version.
    pub draft: DraftVersion,
    /// How its callers see it.
    pub callable: Callable,
}

/// A version that grows.
struct Body<'a> {
    random: &'a mut Random,
    /// The versions that it may call.
    world: &'a [Callable],
    wish: &'a Wish,
    types: Vec<Type>,
    blocks: Vec<DraftBlock>,
    /// The block whose PROM names each block.
    parents: Vec<usize>,
    /// The registers that are emptied and not filled again.
    emptied: Registers,
    captured: Registers,
    /// The registers that are kept from being emptied.
    kept: Registers,
    /// About how many steps it takes so far.
    cost: usize,
    here: Here,
}

/// What is known where the next instruction will stand.
#[derive(Clone)]
struct Here {
    block: usize,
    /// How many skipped parts stand around.
    parts: usize,
    /// The registers that may be read.
    readable: Registers,
    /// The registers that the block assigned, whichever way it went.
    assigned: Registers,
    /// The registers that it read before it assigned them, and those its blocks captured.
    touched: Registers,
    facts: [Fact; REGISTERS],
    /// What the names that are set are expected to hold.
    names: [Option<Fact>; NAMES],
}

/// The instructions, by how often they are wanted.
const WANTED: [(usize, u16); 20] = [
    (10, kinds::LIT),
    (5, kinds::MOVE),
    (5, kinds::USE),
    (5, kinds::DUP),
    (7, kinds::VEC),
    (4, kinds::LEN),
    (6, kinds::GET),
    (7, kinds::SET),
    (14, kinds::ARITH),
    (5, kinds::SELECT),
    (7, kinds::CAST),
    (6, kinds::NAMED),
    (6, kinds::STORE),
    (8, kinds::PROM),
    (9, kinds::FORCE),
    (4, kinds::PEEK),
    (5, kinds::POKE),
    (10, kinds::CALL),
    (12, kinds::DISPATCH),
    (14, kinds::SKIP),
];

/// Instructions of a block that are left for what its end needs.
const RESERVE: usize = 4;

/// Grows a version that may call those of the world.
pub fn grow(random: &mut Random, world: &[Callable], wish: &Wish) -> Grown {
    let mut body = Body::new(random, world, wish);
    body.grow_body();
    body.finish()
}

impl<'a> Body<'a> {
    /// A version without an instruction, its parameters readable.
    fn new(random: &'a mut Random, world: &'a [Callable], wish: &'a Wish) -> Body<'a> {
        let types = wish.signature.parameters.clone();
        let mut facts = [Fact::Unknown; REGISTERS];
        for (fact, &ty) in facts.iter_mut().zip(&types) {
            *fact = Fact::of_type(ty);
        }
        let here = Here {
            block: 0,
            parts: 0,
            readable: Registers::below(types.len()),
            assigned: Registers::default(),
            touched: Registers::default(),
            facts,
            names: [None; NAMES],
        };
        let blocks = vec![DraftBlock {
            mark: wish.signature.mark,
            result: 0,
            instructions: Vec::new(),
        }];
        Body {
            random,
            world,
            wish,
            types,
            blocks,
            parents: vec![0],
            emptied: Registers::default(),
            captured: Registers::default(),
            kept: Registers::default(),
            cost: 0,
            here,
        }
    }

    /// Grows the body, with what it must do somewhere in it.
    fn grow_body(&mut self) {
        self.provide_result();
        let length = self.block_length();
        let special = self.random.below(length + 1);
        for place in 0..=length {
            if place == special {
                self.do_what_it_must();
            }
            if place < length {
                self.attempt();
            }
        }
        self.end_body();
    }

    /// The calls and the trap that are wished for.
    fn do_what_it_must(&mut self) {
        for callable in &self.wish.must_call {
            let covered = callable.level <= self.wish.level;
            if covered && callable.signature.mark <= self.wish.signature.mark {
                self.call_version(callable);
            }
        }
        if let Some(trap) = self.wish.trap {
            self.trap(trap);
        }
    }

    /// About as many instructions as are wished for.
    fn block_length(&mut self) -> usize {
        self.wish.length / 2 + self.random.below(self.wish.length + 1)
    }

    /// Adds an instruction, and what it needs before it, if the block has room.
    fn attempt(&mut self) -> Option<()> {
        self.room()?;
        match self.random.weighted(&WANTED) {
            kinds::LIT => self.lit(),
            kinds::MOVE => self.move_(),
            kinds::USE => self.use_(),
            kinds::DUP => self.dup(),
            kinds::VEC => self.vec(),
            kinds::LEN => self.len(),
            kinds::GET => self.get(),
            kinds::SET => self.set(),
            kinds::ARITH => self.arith(),
            kinds::SELECT => self.select(),
            kinds::CAST => self.cast(),
            kinds::NAMED => self.named(),
            kinds::STORE => self.store(),
            kinds::PROM => self.prom(),
            kinds::FORCE => self.force(),
            kinds::PEEK => self.peek(),
            kinds::POKE => self.poke(),
            kinds::CALL => self.call(),
            kinds::DISPATCH => self.dispatch(),
            _ => self.skip(),
        }
    }

    /// Is there room for one more instruction in the block?
    fn room(&self) -> Option<()> {
        let length = self.blocks[self.here.block].instructions.len();
        (length + RESERVE < INSTRUCTIONS).then_some(())
    }

    /// Is the instruction to stand in a promise block?
    fn in_promise(&self) -> bool {
        self.here.block > 0
    }

    /// Adds an instruction that empties nothing; d is expected to hold the fact.
    fn emit(&mut self, instruction: Instruction, fact: Fact) {
        self.emit_emptying(instruction, &[], fact);
    }

    /// Adds an instruction that empties registers.
    fn emit_emptying(&mut self, instruction: Instruction, emptied: &[Register], fact: Fact) {
        for register in instruction.reads() {
            self.here.read(register);
        }
        for &register in emptied {
            self.emptied.insert(register);
            self.here.readable.remove(register);
        }
        if let Some(register) = instruction.assigns() {
            self.emptied.remove(register);
            self.here.assigned.insert(register);
            self.here.readable.insert(register);
        }
        if let Some(d) = instruction.destination() {
            self.here.facts[usize::from(d)] = fact;
        }
        self.cost += 1;
        let block = &mut self.blocks[self.here.block];
        block.instructions.push(instruction);
    }

    /// What a register is expected to hold.
    fn fact(&self, register: Register) -> Fact {
        self.here.facts[usize::from(register)]
    }

    /// The declared type of a register.
    fn type_of(&self, register: Register) -> Type {
        self.types[usize::from(register)]
    }
}

impl Here {
    /// The block reads a register.
    fn read(&mut self, register: Register) {
        if !self.assigned.contains(register) {
            self.touched.insert(register);
        }
    }

    /// What a promise of the block captures.
    fn captured(&self) -> Registers {
        self.touched.union(self.assigned)
    }
}
