//! From image to text.

use crate::instruction::{self, typed};
use crate::item::{implied_counts, items, Item};
use crate::names::Registers;
use crate::vocabulary::{level_text, mark_text, type_text};
use reference::record::{BlockRecord, VersionRecord};
use reference::Record;

/// The text of an image; [`crate::assemble`] gives its bytes back.
pub fn disassemble(image: &[u8]) -> String {
    print(image, |line, _| line)
}

/// The text of an image with each record's offset in a comment.
pub fn listing(image: &[u8]) -> String {
    let with_offset = |line: String, offset| {
        if line.is_empty() {
            line
        } else {
            format!("{line:<50} # at {offset}")
        }
    };
    print(image, with_offset)
}

/// The lines of an image, each finished with the offset of its record.
fn print(image: &[u8], finish: impl Fn(String, usize) -> String) -> String {
    let items = items(image);
    let counts = implied_counts(&items);
    let (mut offset, mut blocks) = (0, 0);
    let mut text = String::new();
    for (item, implied) in items.iter().zip(counts) {
        let lines = match item {
            Item::Record(Record::Version(head)) => {
                blocks = 0;
                version_lines(head, implied, offset == 0)
            }
            Item::Record(Record::Level(level)) => vec![format!("  level {}", level_text(*level))],
            Item::Record(Record::Block(head)) => {
                blocks += 1;
                vec![block_line(head, blocks - 1, implied)]
            }
            Item::Record(Record::Instruction(instruction)) => {
                vec![format!(
                    "    {}",
                    instruction::print(instruction, &Registers::default())
                )]
            }
            Item::Bytes(bytes) => bytes.chunks(16).map(bytes_line).collect(),
        };
        for line in lines {
            text += &finish(line, offset);
            text.push('\n');
        }
        offset += item.bytes().len();
    }
    text
}

/// The lines of a VERSION, with a blank one before it unless it is the first.
fn version_lines(head: &VersionRecord, implied: usize, first: bool) -> Vec<String> {
    let registers = (0..=u8::MAX).zip(head.types.iter().copied());
    let unnamed = Registers::default();
    let in_head = usize::from(head.parameters).min(head.types.len());
    let mut line = format!(
        "version {}.{}({}) -> {}",
        head.function,
        head.version,
        typed(registers.clone().take(in_head), &unnamed),
        type_text(head.returns)
    );
    if usize::from(head.parameters) > in_head {
        line += &format!(" parameters={}", head.parameters);
    }
    if usize::from(head.blocks) != implied {
        line += &format!(" blocks={}", head.blocks);
    }
    let mut lines = if first { vec![] } else { vec![String::new()] };
    lines.push(line);
    if head.types.len() > in_head {
        lines.push(format!(
            "  registers {}",
            typed(registers.skip(in_head), &unnamed)
        ));
    }
    lines
}

/// The line of a BLOCK.
fn block_line(head: &BlockRecord, number: usize, implied: usize) -> String {
    let mut line = format!(
        "  block {number} {} -> r{}",
        mark_text(head.mark),
        head.result
    );
    if usize::from(head.instructions) != implied {
        line += &format!(" count={}", head.instructions);
    }
    line
}

/// A line of bytes that make no record.
fn bytes_line(bytes: &[u8]) -> String {
    let bytes: Vec<String> = bytes.iter().map(|byte| format!("{byte:02X}")).collect();
    format!("    bytes {}", bytes.join(" "))
}
