//! "Image": records, how they follow one another, and their bytes.

use crate::form::Form;
use crate::instruction::{Instruction, Register};
use crate::kinds;
use crate::types::{Level, Mark, Type};

/// The bytes of a record before its body: u16 whole length, u16 kind.
pub const HEAD: usize = 4;

/// Something that stands in an image at an offset.
#[derive(Clone, PartialEq, Eq, Debug)]
pub struct Placed<T> {
    /// Where its record begins.
    pub offset: usize,
    /// What stands there.
    pub item: T,
}

/// A record taken out of the image, its body not yet understood.
#[derive(Clone, Copy, PartialEq, Eq, Debug)]
pub struct Framed<'a> {
    /// Where the record begins.
    pub offset: usize,
    /// Its kind.
    pub kind: u16,
    /// What follows its head.
    pub body: &'a [u8],
}

impl<'a> Framed<'a> {
    /// The record that begins at an offset; none without a full head, a length
    /// of at least 4, and its end inside the image.
    pub fn at(image: &'a [u8], offset: usize) -> Option<Framed<'a>> {
        let rest = image.get(offset..)?;
        let &[l0, l1, k0, k1, ..] = rest else {
            return None;
        };
        let length = usize::from(u16::from_le_bytes([l0, l1]));
        Some(Framed {
            offset,
            kind: u16::from_le_bytes([k0, k1]),
            body: rest.get(HEAD..length)?,
        })
    }

    /// Where the next record begins.
    pub fn end(&self) -> usize {
        self.offset + HEAD + self.body.len()
    }
}

/// The fields of a VERSION record; its registers are as many as its types.
#[derive(Clone, PartialEq, Eq, Debug)]
pub struct VersionRecord {
    /// The function's number.
    pub function: u8,
    /// The version's number within the function.
    pub version: u8,
    /// How many of the first registers are parameters.
    pub parameters: u8,
    /// The return type.
    pub returns: Type,
    /// How many blocks follow.
    pub blocks: u8,
    /// One type per register.
    pub types: Vec<Type>,
}

/// The fields of a BLOCK record.
#[derive(Clone, PartialEq, Eq, Debug)]
pub struct BlockRecord {
    /// Quiet or reflective.
    pub mark: Mark,
    /// The register whose value the block gives at its end.
    pub result: Register,
    /// How many instructions follow.
    pub instructions: u8,
}

/// A record with its fields.
#[derive(Clone, PartialEq, Eq, Debug)]
pub enum Record {
    /// Kind 1.
    Version(VersionRecord),
    /// Kind 2.
    Block(BlockRecord),
    /// Kind 3.
    Level(Level),
    /// Kinds 17 to 36.
    Instruction(Instruction),
}

impl Record {
    /// The record of a kind and a body in the form in force; none if the kind is
    /// unknown or the length is not the one its fields make.
    pub fn read(kind: u16, body: &[u8]) -> Option<Record> {
        Record::read_in(Form::Wide, kind, body)
    }

    /// The same in a form.
    pub fn read_in(form: Form, kind: u16, body: &[u8]) -> Option<Record> {
        match (kind, body) {
            (
                kinds::VERSION,
                &[function, version, parameters, registers, returns, blocks, ref types @ ..],
            ) if types.len() == registers as usize => Some(Record::Version(VersionRecord {
                function,
                version,
                parameters,
                returns: Type(returns),
                blocks,
                types: types.iter().map(|&byte| Type(byte)).collect(),
            })),
            (kinds::BLOCK, &[mark, result, instructions]) => Some(Record::Block(BlockRecord {
                mark: Mark(mark),
                result,
                instructions,
            })),
            (kinds::LEVEL, &[level]) => Some(Record::Level(Level(level))),
            _ => Instruction::read_in(form, kind, body).map(Record::Instruction),
        }
    }

    /// The record's kind.
    pub fn kind(&self) -> u16 {
        match self {
            Record::Version(_) => kinds::VERSION,
            Record::Block(_) => kinds::BLOCK,
            Record::Level(_) => kinds::LEVEL,
            Record::Instruction(instruction) => instruction.kind(),
        }
    }

    /// The record's bytes in a form; the number of a literal must fit it.
    pub fn bytes_in(&self, form: Form) -> Vec<u8> {
        match *self {
            Record::Instruction(Instruction::Lit { d, value }) => {
                let body = [&[d][..], &form.number_bytes(value)].concat();
                record_bytes(form.literal(), &body)
            }
            _ => self.bytes(),
        }
    }

    /// The record's bytes in the form in force, head and body.
    pub fn bytes(&self) -> Vec<u8> {
        let body = match self {
            Record::Version(version) => version.body(),
            Record::Block(block) => vec![block.mark.0, block.result, block.instructions],
            Record::Level(level) => vec![level.0],
            Record::Instruction(instruction) => instruction.body(),
        };
        record_bytes(self.kind(), &body)
    }
}

/// The bytes of a record of a kind with a body.
pub fn record_bytes(kind: u16, body: &[u8]) -> Vec<u8> {
    let length = u16::try_from(HEAD + body.len()).expect("a record has at most 65,535 bytes");
    [&length.to_le_bytes()[..], &kind.to_le_bytes(), body].concat()
}

impl VersionRecord {
    /// The body of the VERSION record.
    fn body(&self) -> Vec<u8> {
        let registers = u8::try_from(self.types.len()).expect("a version has at most 255 types");
        let mut body = vec![
            self.function,
            self.version,
            self.parameters,
            registers,
            self.returns.0,
            self.blocks,
        ];
        body.extend(self.types.iter().map(|ty| ty.0));
        body
    }
}
