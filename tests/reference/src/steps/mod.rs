//! "Steps": one instruction or one block end is one step.

mod budget;
mod calls;
mod ends;
mod instructions;
mod promises;
mod values;
mod vectors;

pub use budget::Answer;

use crate::bounds::{Integer, INSTRUCTIONS};
use crate::form::Range;
use crate::instruction::Register;
use crate::outside::points_inside;
use crate::program::{Program, Version};
use crate::state::{Activation, End, Frame, State, Status, Value};
use crate::types::Kind;

/// What a single step says.
#[derive(Clone, Copy, PartialEq, Eq, Debug)]
pub enum Said {
    /// The run goes on.
    GoesOn,
    /// The run ended so, with this step or before it.
    Ended(End),
    /// The step was stuck.
    Stuck,
}

/// Why a step changes neither calls, registers nor names.
#[derive(Clone, Copy, PartialEq, Eq, Debug)]
enum Halt {
    /// It is stuck.
    Stuck,
    /// It ends the run.
    Ends(End),
}

/// The answer of a step's rule; where it halts, the state is as it was.
type Step = Result<(), Halt>;

impl State {
    /// The state after a single step, and what the step says.
    pub fn step(self, program: &Program) -> (State, Said) {
        self.step_to(Range::WIDE, program)
    }

    /// The same with integers in a range.
    pub fn step_to(mut self, range: Range, program: &Program) -> (State, Said) {
        if let Status::Ended(end) = self.status {
            return (self, Said::Ended(end));
        }
        if !points_inside(&self, program) {
            return (self, Said::Stuck);
        }
        match self.advance(range, program) {
            Err(Halt::Stuck) => return (self, Said::Stuck),
            Err(Halt::Ends(end)) => self.status = Status::Ended(end),
            Ok(()) => {}
        }
        let said = match self.status {
            Status::Running => Said::GoesOn,
            Status::Ended(end) => Said::Ended(end),
        };
        (self, said)
    }

    /// Executes the next instruction, or the block end, of the newest activation.
    fn advance(&mut self, range: Range, program: &Program) -> Step {
        let top = self.top().clone();
        let version = self.own_version(program);
        let block = &version.blocks[usize::from(top.block)];
        match block.instructions.get(top.next) {
            Some(placed) => self.execute(range, program, version, &placed.item),
            None => self.end_block(program, version, block),
        }
    }

    /// The newest activation, which a state that points inside itself has.
    fn top(&self) -> &Activation {
        self.activations.last().expect("an activation lives")
    }

    /// The frame that the newest activation works on.
    fn own_frame(&mut self) -> &mut Frame {
        let frame = self.top().frame;
        &mut self.frames[frame]
    }

    /// The value in a register of the own frame, if it lies within the kind;
    /// stuck if it does not or if the register is empty.
    fn operand(&self, program: &Program, register: Register, kind: Kind) -> Result<Value, Halt> {
        let registers = &self.frames[self.top().frame].registers;
        let value = registers[usize::from(register)].ok_or(Halt::Stuck)?;
        let found = self.kind(program, value).ok_or(Halt::Stuck)?;
        found.within(kind).then_some(value).ok_or(Halt::Stuck)
    }

    /// The version of the frame that the newest activation works on.
    fn own_version<'p>(&self, program: &'p Program) -> &'p Version {
        let version = self.version(program, self.top().frame);
        version.expect("the image has the versions of all frames")
    }

    /// Goes past so many instructions.
    fn pass(&mut self, count: usize) {
        self.activations
            .last_mut()
            .expect("an activation lives")
            .next += count;
    }

    /// SKIP: goes past the instruction, and past the next n where a is 0; stuck
    /// if that leads past the last position that a block can have.
    fn skip(&mut self, a: Integer, n: u8) -> Step {
        let skipped = if a == 0 { usize::from(n) } else { 0 };
        if self.top().next + 1 + skipped > INSTRUCTIONS {
            return Err(Halt::Stuck);
        }
        self.pass(1 + skipped);
        Ok(())
    }

    /// Puts a value into a register of the own frame and goes past the instruction.
    fn assign(&mut self, d: Register, value: Value) -> Step {
        self.own_frame().registers[usize::from(d)] = Some(value);
        self.pass(1);
        Ok(())
    }
}

/// The step makes UNDEF.
const UNDEF: Halt = Halt::Ends(End::Undef);
