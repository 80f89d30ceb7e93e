//! An image before its bytes: versions, blocks and instructions, with no counts to keep right.

use reference::bounds::VERSIONS_EACH;
use reference::program::{Block, Version};
use reference::record::{BlockRecord, VersionRecord};
use reference::{Instruction, Level, Mark, Program, Record, Register, Type};

/// The versions of an image.
#[derive(Clone, Debug, Default)]
pub struct Draft {
    /// The versions in image order.
    pub versions: Vec<DraftVersion>,
}

/// A version.
#[derive(Clone, Debug)]
pub struct DraftVersion {
    /// The function's number.
    pub function: u8,
    /// The version's number.
    pub version: u8,
    /// How many of the first registers are parameters.
    pub parameters: usize,
    /// The return type.
    pub returns: Type,
    /// The types of the registers.
    pub types: Vec<Type>,
    /// The level.
    pub level: Level,
    /// The blocks by number.
    pub blocks: Vec<DraftBlock>,
}

/// A block.
#[derive(Clone, Debug)]
pub struct DraftBlock {
    /// Its mark.
    pub mark: Mark,
    /// Its result register.
    pub result: Register,
    /// Its instructions.
    pub instructions: Vec<Instruction>,
}

/// Where an instruction stands: version, block and instruction by index.
#[derive(Clone, Copy, Debug)]
pub struct Site {
    /// The version's index in the draft.
    pub version: usize,
    /// The block's number.
    pub block: usize,
    /// The instruction's number.
    pub instruction: usize,
}

impl Draft {
    /// The draft of an image that is accepted.
    pub fn of(program: &Program) -> Draft {
        let versions = program.versions.iter().map(DraftVersion::of).collect();
        Draft { versions }
    }

    /// The records, with all counts as what follows makes them.
    pub fn records(&self) -> Vec<Record> {
        self.versions
            .iter()
            .flat_map(DraftVersion::records)
            .collect()
    }

    /// The bytes of the image.
    pub fn bytes(&self) -> Vec<u8> {
        bytes(&self.records())
    }

    /// The numbers of one more version: of the last function while it may have
    /// more, else of the next.
    pub fn next_numbers(&self) -> (u8, u8) {
        match self.versions.last() {
            None => (0, 0),
            Some(last) if usize::from(last.version) + 1 < VERSIONS_EACH => {
                (last.function, last.version + 1)
            }
            Some(last) => (last.function + 1, 0),
        }
    }

    /// The instruction at a site.
    pub fn at(&mut self, site: Site) -> &mut Instruction {
        let block = &mut self.versions[site.version].blocks[site.block];
        &mut block.instructions[site.instruction]
    }

    /// The sites of the instructions that pass.
    pub fn sites(&self, passes: impl Fn(&Instruction) -> bool) -> Vec<Site> {
        let mut sites = Vec::new();
        for (version, v) in self.versions.iter().enumerate() {
            for (block, b) in v.blocks.iter().enumerate() {
                for (instruction, i) in b.instructions.iter().enumerate() {
                    if passes(i) {
                        sites.push(Site {
                            version,
                            block,
                            instruction,
                        });
                    }
                }
            }
        }
        sites
    }
}

impl DraftVersion {
    /// The draft of a version.
    fn of(version: &Version) -> DraftVersion {
        let block = |block: &Block| DraftBlock {
            mark: block.head.mark,
            result: block.head.result,
            instructions: block.instructions.iter().map(|i| i.item.clone()).collect(),
        };
        DraftVersion {
            function: version.head.function,
            version: version.head.version,
            parameters: version.head.parameters.into(),
            returns: version.head.returns,
            types: version.head.types.clone(),
            level: version.level,
            blocks: version.blocks.iter().map(block).collect(),
        }
    }

    /// The records of the version.
    fn records(&self) -> Vec<Record> {
        let head = VersionRecord {
            function: self.function,
            version: self.version,
            parameters: self.parameters as u8,
            returns: self.returns,
            blocks: self.blocks.len() as u8,
            types: self.types.clone(),
        };
        let mut records = vec![Record::Version(head), Record::Level(self.level)];
        for block in &self.blocks {
            records.push(Record::Block(BlockRecord {
                mark: block.mark,
                result: block.result,
                instructions: block.instructions.len() as u8,
            }));
            let instructions = block.instructions.iter().cloned();
            records.extend(instructions.map(Record::Instruction));
        }
        records
    }

    /// How many bytes the version takes.
    pub fn size(&self) -> usize {
        bytes(&self.records()).len()
    }
}

/// The bytes of records that follow one another.
pub fn bytes(records: &[Record]) -> Vec<u8> {
    let mut bytes = Vec::new();
    for record in records {
        bytes.extend(record.bytes());
    }
    bytes
}
