//! Questions 4 and 5: bounds, the order of records, and the order of versions.

use super::vocabulary::instruction_name;
use crate::number::many;
use reference::bounds::{
    BLOCKS, FUNCTIONS, INSTRUCTIONS, LISTED, PARAMETERS, REGISTERS, VERSIONS, VERSIONS_EACH,
};
use reference::kinds::OPERATIONS;
use reference::questions::records_in;
use reference::record::{BlockRecord, Record, VersionRecord};
use reference::{Form, Instruction, Level, Mark};

/// Question 4: what is out of bounds or out of order at an offset.
pub fn bounds(form: Form, image: &[u8], offset: usize) -> Option<String> {
    let records = records_in(form, image)?;
    let mut due = Due::default();
    for placed in &records {
        if placed.offset == offset {
            return due.misplaced(&placed.item).or_else(|| {
                due.meet(&placed.item);
                due.out_of_bounds(&placed.item)
            });
        }
        due.meet(&placed.item);
    }
    let ends_there = offset == image.len();
    let missing = due.missing().filter(|_| ends_there)?;
    Some(format!("the image ends where {missing} due"))
}

/// What the records so far have made due.
#[derive(Default)]
struct Due {
    /// The versions so far.
    versions: usize,
    /// The last version's numbers.
    version: (u8, u8),
    /// Is its level still due?
    level: bool,
    /// The blocks still due in it, and those met.
    blocks: usize,
    met: usize,
    /// The instructions still due in the block.
    instructions: usize,
}

impl Due {
    /// Goes on by one record.
    fn meet(&mut self, record: &Record) {
        match record {
            Record::Version(head) => {
                self.versions += 1;
                self.version = (head.function, head.version);
                self.level = true;
                self.blocks = head.blocks.into();
                self.met = 0;
            }
            Record::Level(_) => self.level = false,
            Record::Block(head) => {
                self.blocks = self.blocks.saturating_sub(1);
                self.met += 1;
                self.instructions = head.instructions.into();
            }
            Record::Instruction(_) => self.instructions = self.instructions.saturating_sub(1),
        }
    }

    /// What is still due, with its verb; none where nothing is.
    fn missing(&self) -> Option<String> {
        let (function, version) = self.version;
        let verb = |count| if count == 1 { "is" } else { "are" };
        if self.level {
            Some(format!(
                "the LEVEL of {function}.{version}, a line such as `level portal`, is"
            ))
        } else if self.instructions > 0 {
            let instructions = many(self.instructions, "more instruction");
            let block = self.met.saturating_sub(1);
            let verb = verb(self.instructions);
            Some(format!(
                "{instructions} of block {block} of {function}.{version} {verb}"
            ))
        } else if self.blocks > 0 {
            let blocks = many(self.blocks, "more block");
            let verb = verb(self.blocks);
            Some(format!("{blocks} of {function}.{version} {verb}"))
        } else {
            None
        }
    }

    /// Why a record does not stand in order.
    fn misplaced(&self, record: &Record) -> Option<String> {
        let (name, in_order) = match record {
            Record::Version(_) => ("VERSION".to_string(), self.missing().is_none()),
            Record::Level(_) => ("LEVEL".to_string(), self.level),
            Record::Block(_) => {
                let in_order = !self.level && self.instructions == 0 && self.blocks > 0;
                ("BLOCK".to_string(), in_order)
            }
            Record::Instruction(item) => {
                (instruction_name(item), !self.level && self.instructions > 0)
            }
        };
        let due = match self.missing() {
            Some(missing) => format!("{missing} due"),
            None => "a VERSION is due".to_string(),
        };
        (!in_order).then(|| format!("{name} stands where {due}"))
    }

    /// What is out of bounds in a record that was just met.
    fn out_of_bounds(&self, record: &Record) -> Option<String> {
        match record {
            Record::Version(_) if self.versions > VERSIONS => Some(format!(
                "VERSION {} of the image, and {VERSIONS} are the most",
                self.versions
            )),
            Record::Version(head) => version_out_of_bounds(head),
            Record::Level(level) => level_out_of_bounds(*level),
            Record::Block(head) => block_out_of_bounds(head),
            Record::Instruction(item) => instruction_out_of_bounds(item),
        }
    }
}

/// What is out of bounds in a VERSION.
fn version_out_of_bounds(head: &VersionRecord) -> Option<String> {
    let (function, version) = (usize::from(head.function), usize::from(head.version));
    let (registers, parameters) = (head.types.len(), usize::from(head.parameters));
    let blocks = usize::from(head.blocks);
    let what = if function >= FUNCTIONS {
        format!("has a function above {}", FUNCTIONS - 1)
    } else if version >= VERSIONS_EACH {
        format!("has a version above {}", VERSIONS_EACH - 1)
    } else if !(1..=REGISTERS).contains(&registers) {
        let registers = many(registers, "register");
        format!("declares {registers}, and 1 to {REGISTERS} are allowed")
    } else if parameters > PARAMETERS {
        format!("has {parameters} parameters, and {PARAMETERS} are the most")
    } else if parameters > registers {
        let parameters = many(parameters, "parameter");
        format!("has {parameters}, but {}", many(registers, "register"))
    } else if blocks == 0 {
        format!(
            "has no block, and 1 to {BLOCKS} are allowed; instructions stand behind a line such as `block 0 quiet -> r0`"
        )
    } else if blocks > BLOCKS {
        format!("has {blocks} blocks, and {BLOCKS} are the most")
    } else {
        return None;
    };
    Some(format!("VERSION {function}.{version} {what}"))
}

/// What is out of bounds in a LEVEL.
fn level_out_of_bounds(level: Level) -> Option<String> {
    (!level.known()).then(|| {
        format!(
            "LEVEL has the level {}, and levels are 0 portal, 1 staff and 2 factory",
            level.0
        )
    })
}

/// What is out of bounds in a BLOCK.
fn block_out_of_bounds(head: &BlockRecord) -> Option<String> {
    let count = usize::from(head.instructions);
    if !head.mark.known() {
        Some(format!("BLOCK has {}", unknown_mark(head.mark)))
    } else if count > INSTRUCTIONS {
        Some(format!(
            "BLOCK has {count} instructions, and {INSTRUCTIONS} are the most"
        ))
    } else {
        None
    }
}

/// Words for a mark that is none.
fn unknown_mark(mark: Mark) -> String {
    format!(
        "the mark {}, and marks are 0 quiet and 1 reflective",
        mark.0
    )
}

/// What is out of bounds in an instruction.
fn instruction_out_of_bounds(instruction: &Instruction) -> Option<String> {
    let name = instruction_name(instruction);
    let listed = instruction.reads().len();
    match instruction {
        Instruction::Arith { op, .. } if *op >= OPERATIONS => Some(format!(
            "ARITH has the op {op}, and {} is the last",
            OPERATIONS - 1
        )),
        Instruction::Dispatch { mark, .. } if !mark.known() => {
            Some(format!("{name} has {}", unknown_mark(*mark)))
        }
        Instruction::Vec { .. } | Instruction::Call { .. } | Instruction::Dispatch { .. }
            if listed > LISTED =>
        {
            Some(format!(
                "{name} lists {listed} registers, and {LISTED} are the most"
            ))
        }
        _ => None,
    }
}

/// Question 5: which version was due at an offset.
pub fn numbering(form: Form, image: &[u8], offset: usize) -> Option<String> {
    let records = records_in(form, image)?;
    let versions = records.iter().filter_map(|placed| match &placed.item {
        Record::Version(head) => Some((placed.offset, head.function, head.version)),
        _ => None,
    });
    let versions: Vec<_> = versions.take_while(|&(at, ..)| at <= offset).collect();
    let (&(at, function, version), before) = versions.split_last()?;
    if at != offset {
        return None;
    }
    match before.last() {
        None if (function, version) != (0, 0) => Some(format!(
            "VERSION {function}.{version} is the first, and 0.0 is due"
        )),
        Some(&(_, f, v)) if ![(f, v + 1), (f + 1, 0)].contains(&(function, version)) => {
            let (next, new) = (format!("{f}.{}", v + 1), format!("{}.0", f + 1));
            Some(format!(
                "VERSION {function}.{version} follows {f}.{v}, and {next} or {new} is due"
            ))
        }
        _ => None,
    }
}
