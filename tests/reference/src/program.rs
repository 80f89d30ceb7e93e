//! The versions, blocks and instructions that the records of an image make.

use crate::instruction::{Instruction, Register};
use crate::record::{BlockRecord, Placed, Record, VersionRecord};
use crate::types::{Level, Mark, Type};

/// An image whose records are in order.
#[derive(Clone, PartialEq, Eq, Debug)]
pub struct Program {
    /// The versions in image order.
    pub versions: Vec<Version>,
}

/// A version with its blocks.
#[derive(Clone, PartialEq, Eq, Debug)]
pub struct Version {
    /// Where the VERSION record begins.
    pub offset: usize,
    /// The fields of the VERSION record.
    pub head: VersionRecord,
    /// The level that the LEVEL record states.
    pub level: Level,
    /// The blocks by number; block 0 is the body.
    pub blocks: Vec<Block>,
}

/// A block with its instructions.
#[derive(Clone, PartialEq, Eq, Debug)]
pub struct Block {
    /// Where the BLOCK record begins.
    pub offset: usize,
    /// The fields of the BLOCK record.
    pub head: BlockRecord,
    /// The instructions by number.
    pub instructions: Vec<Placed<Instruction>>,
}

/// What a call is judged by: that of the version called, or DISPATCH's own.
#[derive(Clone, PartialEq, Eq, Debug)]
pub struct Signature {
    /// The types of the parameters.
    pub parameters: Vec<Type>,
    /// The return type.
    pub returns: Type,
    /// The mark of the call.
    pub mark: Mark,
}

impl Program {
    /// The program of records that are in order (question 4).
    pub(crate) fn gather(records: &[Placed<Record>]) -> Program {
        let mut versions: Vec<Version> = Vec::new();
        for record in records {
            let offset = record.offset;
            match record.item.clone() {
                Record::Version(head) => versions.push(Version {
                    offset,
                    head,
                    level: Level::PORTAL,
                    blocks: Vec::new(),
                }),
                Record::Level(level) => {
                    let version = versions.last_mut().expect("a level follows a version");
                    version.level = level;
                }
                Record::Block(head) => {
                    let version = versions.last_mut().expect("a block follows a version");
                    version.blocks.push(Block {
                        offset,
                        head,
                        instructions: Vec::new(),
                    });
                }
                Record::Instruction(item) => {
                    let version = versions.last_mut().expect("a block follows a version");
                    let block = version.blocks.last_mut();
                    let block = block.expect("an instruction follows a block");
                    block.instructions.push(Placed { offset, item });
                }
            }
        }
        Program { versions }
    }

    /// The version of these numbers, if there is one.
    pub fn version(&self, function: usize, version: usize) -> Option<&Version> {
        self.versions_of(function)
            .find(|v| usize::from(v.head.version) == version)
    }

    /// The versions of a function in image order, which is that of their numbers.
    pub fn versions_of(&self, function: usize) -> impl Iterator<Item = &Version> {
        self.versions
            .iter()
            .filter(move |v| usize::from(v.head.function) == function)
    }

    /// The signature that a CALL or DISPATCH is judged by; none for other
    /// instructions and for a CALL of a version that does not exist.
    pub fn signature(&self, instruction: &Instruction) -> Option<Signature> {
        match *instruction {
            Instruction::Call {
                function, version, ..
            } => self
                .version(function.into(), version.into())
                .map(Version::signature),
            Instruction::Dispatch {
                mark,
                returns,
                ref arguments,
                ..
            } => Some(Signature {
                parameters: arguments.iter().map(|&(ty, _)| ty).collect(),
                returns,
                mark,
            }),
            _ => None,
        }
    }

    /// The registers that the instruction empties: USE's a, and what a call
    /// gives to owned parameters.
    pub fn emptied(&self, instruction: &Instruction) -> Vec<Register> {
        if let Instruction::Use { a, .. } = *instruction {
            return vec![a];
        }
        let Some(signature) = self.signature(instruction) else {
            return vec![];
        };
        let given = instruction.reads().into_iter().zip(signature.parameters);
        given
            .filter(|(_, parameter)| parameter.is_owned())
            .map(|(register, _)| register)
            .collect()
    }
}

impl Version {
    /// The declared type of a register, which exists.
    pub fn type_of(&self, register: Register) -> Type {
        self.head.types[usize::from(register)]
    }

    /// Does the version declare the register?
    pub fn declares(&self, register: Register) -> bool {
        usize::from(register) < self.head.types.len()
    }

    /// The types of the parameters, which are the first registers.
    pub fn parameters(&self) -> &[Type] {
        &self.head.types[..usize::from(self.head.parameters)]
    }

    /// The version's mark is that of its block 0.
    pub fn mark(&self) -> Mark {
        self.blocks[0].head.mark
    }

    /// The signature that a CALL of this version is judged by.
    pub fn signature(&self) -> Signature {
        Signature {
            parameters: self.parameters().to_vec(),
            returns: self.head.returns,
            mark: self.mark(),
        }
    }
}
