//! From text to image.

use crate::declarations::{Declaration, Declarations, Words};
use crate::error::Error;
use crate::item::{implied_counts, Item};
use crate::line::{Declared, Line};
use crate::names::{Names, Registers};
use reference::Record;
use std::mem;
use std::ops::Range;

/// An image, the line of the text that each of its records came from, and its registers as
/// the text declares them.
#[derive(Clone, PartialEq, Eq, Debug)]
pub struct Lined {
    /// The image.
    pub image: Vec<u8>,
    /// Offsets with their lines, in order; a line of bytes that make several
    /// records stands once.
    pub lines: Vec<(usize, usize)>,
    /// What the registers are called.
    pub names: Names,
    /// Where they are declared.
    pub declarations: Declarations,
}

/// The image that a text describes, or the first line that is wrong.
pub fn assemble(text: &str) -> Result<Vec<u8>, Error> {
    assemble_lined(text).map(|lined| lined.image)
}

/// The image that a text describes, with its lines, or the first line that is wrong.
pub fn assemble_lined(text: &str) -> Result<Lined, Error> {
    let mut assembly = Assembly::default();
    for (number, line) in (1..).zip(text.lines()) {
        let wrong = |(column, reason)| Error {
            line: number,
            column,
            reason,
        };
        let start = first_column(line);
        if let Some(said) = Line::parse(line, &assembly.called).map_err(wrong)? {
            let words = |bytes| Words::within(text, line, number, bytes);
            let added = assembly.add(number, said, &words);
            added.map_err(|(column, reason)| wrong((column.unwrap_or(start), reason)))?;
        }
    }
    assembly.lined()
}

/// The column of the first word of a line, the first being 1.
pub fn first_column(line: &str) -> usize {
    1 + line.chars().take_while(|sign| sign.is_whitespace()).count()
}

/// The items so far, each with the line it came from and its written count.
#[derive(Default)]
struct Assembly {
    items: Vec<Item>,
    lines: Vec<usize>,
    counts: Vec<Option<u8>>,
    /// The blocks since the last version.
    blocks: usize,
    /// What the registers of the last version are called, and where they are declared.
    called: Registers,
    declared: Vec<Declaration>,
    /// Those of all versions before it.
    names: Names,
    declarations: Declarations,
}

/// What is wrong in a line, and its column; none for the first word.
type Misplaced = (Option<usize>, String);

impl Assembly {
    /// Adds what a line says; the words at some of its bytes stand in the text as given.
    fn add(
        &mut self,
        number: usize,
        line: Line,
        words: &dyn Fn(Range<usize>) -> Words,
    ) -> Result<(), Misplaced> {
        let (item, count) = match line {
            Line::Version(head, blocks, declared) => {
                self.close_version();
                self.items.push(Item::Record(Record::Version(head)));
                self.lines.push(number);
                self.counts.push(blocks);
                return self.declare(declared, words);
            }
            Line::Registers(declared) => return self.declare(declared, words),
            Line::Level(level) => (Item::Record(Record::Level(level)), None),
            Line::Block(written, head, count) => {
                if written != self.blocks {
                    return Err((None, format!("this is block {}", self.blocks)));
                }
                self.blocks += 1;
                (Item::Record(Record::Block(head)), count)
            }
            Line::Instruction(instruction) => {
                (Item::Record(Record::Instruction(instruction)), None)
            }
            Line::Bytes(bytes) => (Item::Bytes(bytes), None),
        };
        self.items.push(item);
        self.lines.push(number);
        self.counts.push(count);
        Ok(())
    }

    /// Notes what the registers of the last version are called, and forgets it.
    fn close_version(&mut self) {
        self.blocks = 0;
        let (called, declared) = (mem::take(&mut self.called), mem::take(&mut self.declared));
        let mut items = self.items.iter().rev();
        let head = items.find_map(|item| match item {
            Item::Record(Record::Version(head)) => Some((head.function, head.version)),
            _ => None,
        });
        if let Some((function, version)) = head {
            self.names.add(function, version, called);
            self.declarations.add(function, version, declared);
        }
    }

    /// Adds registers of a line to the version, which is the last item.
    fn declare(
        &mut self,
        declared: Vec<Declared>,
        words: &dyn Fn(Range<usize>) -> Words,
    ) -> Result<(), Misplaced> {
        let Some(Item::Record(Record::Version(head))) = self.items.last_mut() else {
            let reason = "registers stand right after their version".to_string();
            return Err((None, reason));
        };
        for each in declared {
            let column = Some(each.column);
            let name = name_of(&self.called, each.called).map_err(|reason| (column, reason))?;
            self.called.declare(name);
            head.types.push(each.ty);
            let ty = words(each.words);
            self.declared.push(Declaration {
                line: ty.line,
                column: each.column,
                ty,
            });
        }
        if head.types.len() > usize::from(u8::MAX) {
            let reason = "a version declares at most 255 registers".to_string();
            return Err((None, reason));
        }
        Ok(())
    }

    /// The bytes of all items, their counts filled in, and their lines.
    fn lined(mut self) -> Result<Lined, Error> {
        self.close_version();
        let implied = implied_counts(&self.items);
        for (index, item) in self.items.iter_mut().enumerate() {
            let count = match self.counts[index] {
                Some(written) => written,
                None => u8::try_from(implied[index]).map_err(|_| Error {
                    line: self.lines[index],
                    column: 1,
                    reason: format!("{} follow, and a count is at most 255", implied[index]),
                })?,
            };
            match item {
                Item::Record(Record::Version(head)) => head.blocks = count,
                Item::Record(Record::Block(head)) => head.instructions = count,
                _ => {}
            }
        }
        let (mut image, mut lines) = (Vec::new(), Vec::new());
        for (item, &line) in self.items.iter().zip(&self.lines) {
            lines.push((image.len(), line));
            image.extend(item.bytes());
        }
        Ok(Lined {
            image,
            lines,
            names: self.names,
            declarations: self.declarations,
        })
    }
}

/// The name of the register that is declared next, where it has one, behind others that are
/// called so.
fn name_of(others: &Registers, called: Result<u8, String>) -> Result<Option<String>, String> {
    let due = others.count();
    match called {
        Ok(number) if usize::from(number) == due => Ok(None),
        Ok(number) => Err(format!("expected r{due} here, found `r{number}`")),
        Err(name) => match others.number(&name) {
            Some(other) => Err(format!("r{other} is called `{name}` already")),
            None => Ok(Some(name)),
        },
    }
}
