//! Where a state stands in its image, for people and for tools.

use crate::program::Program;
use crate::state::State;

/// Where a state stands.
#[derive(Clone, Copy, PartialEq, Eq, Debug)]
pub struct Position {
    /// The function of the frame that is worked on.
    pub function: u8,
    /// The number of its version.
    pub version: u8,
    /// The block's number.
    pub block: u8,
    /// The number of the next instruction; the instruction count at the block end.
    pub instruction: usize,
    /// Is it the end of the block?
    pub at_end: bool,
    /// Where the record of the instruction begins; at the block end that of the block.
    pub offset: usize,
}

impl State {
    /// Where the state stands, ended or not; none where it stands neither at an
    /// instruction nor at a block end of the program.
    pub fn position(&self, program: &Program) -> Option<Position> {
        let top = self.activations.last()?;
        let frame = self.frames.get(top.frame)?;
        let block = self.block(program, top.frame, top.block)?;
        let at_end = top.next == block.instructions.len();
        let offset = if at_end {
            block.offset
        } else {
            block.instructions.get(top.next)?.offset
        };
        Some(Position {
            function: frame.function,
            version: frame.version,
            block: top.block,
            instruction: top.next,
            at_end,
            offset,
        })
    }
}
