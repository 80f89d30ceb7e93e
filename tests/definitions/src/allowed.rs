//! A step of a run that may have so many vectors.

use crate::instruction::Instruction;
use crate::program::{Position, Program};
use crate::state::{at, end_unless, End, Frame, State, Try, PLACES};

impl State {
    /// How many vectors count.
    pub fn vectors_in(&self) -> usize {
        let counts = |&place: &u8| self.vector_counts(place);
        (0..PLACES as u8).filter(counts).count()
    }

    /// Is a vector needed? By VEC and DUP, whose operands are there.
    fn needs_vector(&self, frame: &Frame, instruction: &Instruction) -> bool {
        match *instruction {
            Instruction::Dup { a, .. } => {
                let vector = frame.vector(a);
                vector.and_then(|number| at(&self.vectors, number)).is_ok()
            }
            Instruction::Vec { ref items, .. } => {
                items.iter().all(|&item| frame.integer(item).is_ok())
            }
            _ => false,
        }
    }

    /// One step of a run that goes on and may have so many vectors; what is left where it
    /// halts means nothing.
    pub fn advance_with(&mut self, most: usize, program: Program) -> Try<()> {
        let here = self.here(program)?;
        if let Position::Instruction(instruction, _) = here.position() {
            let needs = self.needs_vector(&here.frame, &instruction);
            end_unless(End::Vectors, !needs || self.vectors_in() < most)?;
        }
        self.advance(program)
    }
}
