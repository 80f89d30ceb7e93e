//! What one line of a text says.

use crate::cursor::{Cursor, Reason};
use crate::instruction;
use crate::names::Registers;
use reference::record::{BlockRecord, VersionRecord};
use reference::{Instruction, Level, Register, Type};
use std::ops::Range;

/// A register that is declared: by its number or its name, with its type.
pub struct Declared {
    /// Its number, or its name.
    pub called: Result<Register, String>,
    /// Its type.
    pub ty: Type,
    /// The column that it stands in.
    pub column: usize,
    /// The bytes of its type's words in the line.
    pub words: Range<usize>,
}

/// A line, its counts left open unless written out.
pub enum Line {
    /// A VERSION without types, its `blocks`, and the registers written in it.
    Version(VersionRecord, Option<u8>, Vec<Declared>),
    /// Further registers of the version.
    Registers(Vec<Declared>),
    /// A LEVEL.
    Level(Level),
    /// A BLOCK with the number written in it, and its `count`.
    Block(usize, BlockRecord, Option<u8>),
    /// An instruction.
    Instruction(Instruction),
    /// Bytes that make no record.
    Bytes(Vec<u8>),
}

impl Line {
    /// What the line says in a version whose registers are called so, none if it is blank; or
    /// the column that is wrong, and why.
    pub fn parse(text: &str, called: &Registers) -> Result<Option<Line>, (usize, Reason)> {
        let mut line = Cursor::new(text, called);
        if line.at_end() {
            return Ok(None);
        }
        let parsed = Line::parse_words(&mut line);
        let parsed = parsed.map_err(|reason| (line.wrong_column(), reason))?;
        Ok(Some(parsed))
    }

    /// What the words of a line say that is not blank.
    fn parse_words(line: &mut Cursor) -> Result<Line, Reason> {
        let parsed = if line.take_word("version") {
            parse_version(line)?
        } else if line.take_word("registers") {
            Line::Registers(parse_registers(line)?)
        } else if line.take_word("level") {
            Line::Level(line.level()?)
        } else if line.take_word("block") {
            parse_block(line)?
        } else if line.take_word("bytes") {
            Line::Bytes(parse_bytes(line)?)
        } else {
            Line::Instruction(instruction::parse(line)?)
        };
        line.finish()?;
        Ok(parsed)
    }
}

/// A `version` line after its word.
fn parse_version(line: &mut Cursor) -> Result<Line, Reason> {
    let function = line.number()?;
    line.sign(".")?;
    let version = line.number()?;
    let declared = line.list("(", ")", parse_declared)?;
    line.sign("->")?;
    let returns = line.ty()?;
    let parameters = parse_key(line, "parameters")?.unwrap_or(declared.len() as u8);
    let blocks = parse_key(line, "blocks")?;
    let head = VersionRecord {
        function,
        version,
        parameters,
        returns,
        blocks: 0,
        types: Vec::new(),
    };
    Ok(Line::Version(head, blocks, declared))
}

/// A register with its type.
fn parse_declared(line: &mut Cursor) -> Result<Declared, Reason> {
    let column = line.column();
    let called = line.declared()?;
    line.sign(":")?;
    let first = line.place();
    let ty = line.ty()?;
    Ok(Declared {
        called,
        ty,
        column,
        words: line.bytes_since(first),
    })
}

/// A `registers` line after its word.
fn parse_registers(line: &mut Cursor) -> Result<Vec<Declared>, Reason> {
    let mut declared = vec![parse_declared(line)?];
    while line.take(",") {
        declared.push(parse_declared(line)?);
    }
    Ok(declared)
}

/// A `block` line after its word.
fn parse_block(line: &mut Cursor) -> Result<Line, Reason> {
    let number = line.block_number()?;
    let mark = line.mark()?;
    line.sign("->")?;
    let result = line.register()?;
    let count = parse_key(line, "count")?;
    let head = BlockRecord {
        mark,
        result,
        instructions: 0,
    };
    Ok(Line::Block(number, head, count))
}

/// The number after a key and `=`; none if the key does not stand here.
fn parse_key(line: &mut Cursor, key: &str) -> Result<Option<u8>, Reason> {
    if !line.take_word(key) {
        return Ok(None);
    }
    line.sign("=")?;
    line.number().map(Some)
}

/// The bytes of a `bytes` line after its word.
fn parse_bytes(line: &mut Cursor) -> Result<Vec<u8>, Reason> {
    let mut bytes = Vec::new();
    while !line.at_end() {
        bytes.push(line.byte()?);
    }
    Ok(bytes)
}
