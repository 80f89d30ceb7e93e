//! The program that an image and a table stand for, whatever their bytes are. It is not
//! built: each part is read where it is asked for.

use crate::instruction::{byte, is_short, Instruction};

/// Versions have numbers below this: 4 times the function, and the version.
const NUMBERS: usize = 128;
/// The versions of a function.
pub const VERSIONS: usize = 4;
/// The functions of an image.
pub const FUNCTIONS: usize = NUMBERS / VERSIONS;
/// The entries that each version has for its blocks.
const BLOCKS: usize = 8;
/// Where the records of the table begin, and the bytes of one.
const RECORDS: usize = 2304;
const RECORD: usize = 8;
/// A block of an accepted image has no more instructions: of any block so many count.
pub const INSTRUCTIONS: usize = 48;
/// A place lies so far behind the offset of its record.
const KIND: usize = 2;

/// An image and its table.
#[derive(Clone, Copy, Debug)]
pub struct Program<'p> {
    /// The image.
    pub image: &'p [u8],
    /// Its table.
    pub table: &'p [u8],
}

/// A version that is there.
#[derive(Clone, Copy, Debug)]
pub struct Version<'p> {
    program: Program<'p>,
    number: usize,
}

/// A block of a version.
#[derive(Clone, Copy, Debug)]
pub struct Block<'p> {
    program: Program<'p>,
    record: usize,
}

/// What stands at a number in a block.
#[derive(Clone, PartialEq, Eq, Debug)]
pub enum Position {
    /// An instruction, with the offset of its record.
    Instruction(Instruction, usize),
    /// The end of the block, with the offset of its record.
    BlockEnd(usize),
    /// Neither.
    Outside,
}

impl<'p> Program<'p> {
    /// The entry of a number.
    fn entry(self, number: usize) -> usize {
        let bytes = [2 * number, 2 * number + 1].map(|place| byte(self.table, place));
        u16::from_le_bytes(bytes).into()
    }

    /// A byte of a record of the table.
    fn field(self, record: usize, field: usize) -> u8 {
        byte(self.table, RECORDS + RECORD * record + field)
    }

    /// The place of a record in the image.
    fn place(self, record: usize) -> usize {
        u16::from_le_bytes([6, 7].map(|field| self.field(record, field))).into()
    }

    /// The offset of a record in the image.
    fn offset(self, record: usize) -> usize {
        self.place(record).saturating_sub(KIND)
    }

    /// The instruction of a record.
    fn instruction(self, record: usize) -> Instruction {
        let kind = self.field(record, 0);
        if is_short(kind) {
            Instruction::short(kind, self.table, RECORDS + RECORD * record + 1)
        } else {
            Instruction::long(kind, self.image, self.place(record) + 2)
        }
    }

    /// The version of these numbers, if it is there.
    pub fn version(self, function: usize, version: usize) -> Option<Version<'p>> {
        if function >= FUNCTIONS || version >= VERSIONS {
            return None;
        }
        let number = VERSIONS * function + version;
        let program = self;
        (self.entry(number) != 0).then_some(Version { program, number })
    }
}

impl<'p> Version<'p> {
    /// A byte of the image behind the place of the VERSION.
    fn behind(self, far: usize) -> u8 {
        byte(self.program.image, self.program.entry(self.number) + far)
    }

    /// The function.
    pub fn function(self) -> u8 {
        (self.number / VERSIONS) as u8
    }

    /// The number within the function.
    pub fn version(self) -> u8 {
        (self.number % VERSIONS) as u8
    }

    /// How many registers it has.
    pub fn registers(self) -> usize {
        self.behind(5).into()
    }

    /// The type of a register, if it has one.
    pub fn type_of(self, register: u8) -> Option<u8> {
        let register = usize::from(register);
        (register < self.registers()).then(|| self.behind(8 + register))
    }

    /// The types of its parameters.
    pub fn parameter_types(self) -> Vec<u8> {
        let parameters = usize::from(self.behind(4)).min(self.registers());
        (0..parameters).map(|at| self.behind(8 + at)).collect()
    }

    /// Its return type.
    pub fn returns(self) -> u8 {
        self.behind(6)
    }

    /// Its level.
    pub fn level(self) -> u8 {
        self.behind(12 + self.registers())
    }

    /// How many blocks it has.
    pub fn blocks(self) -> usize {
        self.behind(7).into()
    }

    /// The block of a number, if it has one.
    pub fn block(self, number: u8) -> Option<Block<'p>> {
        let (program, number) = (self.program, usize::from(number));
        let entry = NUMBERS + BLOCKS * self.number + number;
        (number < self.blocks()).then(|| Block {
            program,
            record: program.entry(entry),
        })
    }

    /// Its mark: that of its block 0, and 0 without one.
    pub fn mark(self) -> u8 {
        self.block(0).map_or(0, Block::mark)
    }
}

impl Block<'_> {
    /// The offset of its record.
    pub fn offset(self) -> usize {
        self.program.offset(self.record)
    }

    /// Its mark: 0 is quiet, all else reflective.
    pub fn mark(self) -> u8 {
        u8::from(self.program.field(self.record, 1) != 0)
    }

    /// Its result register.
    pub fn result(self) -> u8 {
        self.program.field(self.record, 2)
    }

    /// How many instructions it has: none where the table ends before the last of them.
    pub fn count(self) -> usize {
        let count = usize::from(self.program.field(self.record, 3));
        let end = RECORDS + RECORD * (self.record + 1 + count);
        if end <= self.program.table.len() {
            count
        } else {
            0
        }
    }

    /// What stands at a number.
    pub fn position(self, number: u8) -> Position {
        let (number, count) = (usize::from(number), self.count().min(INSTRUCTIONS));
        let record = self.record + 1 + number;
        if number < count {
            let offset = self.program.offset(record);
            Position::Instruction(self.program.instruction(record), offset)
        } else if number == count {
            Position::BlockEnd(self.offset())
        } else {
            Position::Outside
        }
    }
}
