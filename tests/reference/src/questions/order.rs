//! Questions 4 and 5: bounds, the order of records, and the order of versions.

use crate::bounds::{
    BLOCKS, FUNCTIONS, INSTRUCTIONS, LISTED, PARAMETERS, REGISTERS, VERSIONS, VERSIONS_EACH,
};
use crate::instruction::Instruction;
use crate::kinds::OPERATIONS;
use crate::program::Program;
use crate::record::{BlockRecord, Placed, Record, VersionRecord};

/// Question 4: are numbers, counts, marks, levels, op and n in bounds, and records in
/// order, a LEVEL right after each VERSION?
pub fn question4(records: &[Placed<Record>], image_length: usize) -> Result<(), usize> {
    let mut due = Due::default();
    for record in records {
        due.meet(&record.item).ok_or(record.offset)?;
    }
    if due.version() {
        Ok(())
    } else {
        Err(image_length)
    }
}

/// What the records so far have made.
#[derive(Default)]
struct Due {
    /// The versions so far.
    versions: usize,
    /// Is the level of the version still due?
    level: bool,
    /// The blocks still due in the version.
    blocks: usize,
    /// The instructions still due in the block.
    instructions: usize,
}

impl Due {
    /// Is a version due, or the end of the image?
    fn version(&self) -> bool {
        !self.level && self.blocks == 0 && self.instructions == 0
    }

    /// Goes on by one record; none if it is not due or not in bounds.
    fn meet(&mut self, record: &Record) -> Option<()> {
        let passes = match record {
            Record::Version(version) => {
                self.versions += 1;
                let due = self.version();
                self.level = true;
                self.blocks = version.blocks.into();
                due && self.versions <= VERSIONS && version_in_bounds(version)
            }
            Record::Block(block) => {
                let due = !self.level && self.blocks > 0 && self.instructions == 0;
                self.blocks = self.blocks.saturating_sub(1);
                self.instructions = block.instructions.into();
                due && block_in_bounds(block)
            }
            Record::Level(level) => {
                let due = self.level;
                self.level = false;
                due && level.known()
            }
            Record::Instruction(instruction) => {
                let due = self.instructions > 0;
                self.instructions = self.instructions.saturating_sub(1);
                due && instruction_in_bounds(instruction)
            }
        };
        passes.then_some(())
    }
}

/// Are a VERSION's numbers and counts in bounds?
fn version_in_bounds(version: &VersionRecord) -> bool {
    let registers = version.types.len();
    let parameters = usize::from(version.parameters);
    usize::from(version.function) < FUNCTIONS
        && usize::from(version.version) < VERSIONS_EACH
        && (1..=REGISTERS).contains(&registers)
        && parameters <= PARAMETERS
        && parameters <= registers
        && (1..=BLOCKS).contains(&version.blocks.into())
}

/// Are a BLOCK's mark and instruction count in bounds?
fn block_in_bounds(block: &BlockRecord) -> bool {
    block.mark.known() && usize::from(block.instructions) <= INSTRUCTIONS
}

/// Are an instruction's op, mark and n in bounds?
fn instruction_in_bounds(instruction: &Instruction) -> bool {
    match instruction {
        Instruction::Vec { items, .. } => items.len() <= LISTED,
        Instruction::Arith { op, .. } => *op < OPERATIONS,
        Instruction::Call { arguments, .. } => arguments.len() <= LISTED,
        Instruction::Dispatch {
            mark, arguments, ..
        } => mark.known() && arguments.len() <= LISTED,
        _ => true,
    }
}

/// Question 5: is the first version 0.0, and each next one the same function with
/// version + 1, or function + 1 with version 0?
pub fn question5(program: &Program) -> Result<(), usize> {
    let mut next = vec![(0, 0)];
    for version in &program.versions {
        let (f, v) = (version.head.function, version.head.version);
        if !next.contains(&(f, v)) {
            return Err(version.offset);
        }
        next = vec![(f, v + 1), (f + 1, 0)];
    }
    Ok(())
}
