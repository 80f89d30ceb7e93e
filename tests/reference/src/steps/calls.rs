//! The rules of CALL and DISPATCH.

use super::{Halt, Step, UNDEF};
use crate::instruction::Instruction;
use crate::program::{Program, Version};
use crate::search::first_that_fits;
use crate::state::{Activation, Frame, Opener, State, Value};
use crate::types::Kind;

impl State {
    /// CALL: enters the version named.
    pub(super) fn call(
        &mut self,
        program: &Program,
        instruction: &Instruction,
        arguments: &[Value],
    ) -> Step {
        let Instruction::Call {
            function, version, ..
        } = *instruction
        else {
            return Err(Halt::Stuck);
        };
        let called = program.version(function.into(), version.into());
        self.enter(program, called.ok_or(Halt::Stuck)?, instruction, arguments)
    }

    /// DISPATCH: enters the lowest version that fits and is not above the level of
    /// the version whose block holds it; UNDEF if there is none.
    pub(super) fn dispatch(
        &mut self,
        program: &Program,
        instruction: &Instruction,
        arguments: &[Value],
    ) -> Step {
        let kinds = arguments.iter().map(|&value| self.kind(program, value));
        let kinds: Vec<Kind> = kinds.collect::<Option<_>>().ok_or(Halt::Stuck)?;
        let fitting = first_that_fits(
            program,
            self.own_version(program).level,
            instruction,
            &kinds,
        );
        self.enter(program, fitting.ok_or(UNDEF)?, instruction, arguments)
    }

    /// Opens a frame with the arguments, and empties the registers given to
    /// owned parameters; DEEP if the activation is the 33rd.
    fn enter(
        &mut self,
        program: &Program,
        entered: &Version,
        instruction: &Instruction,
        arguments: &[Value],
    ) -> Step {
        let d = instruction.destination().ok_or(Halt::Stuck)?;
        let caller = self.top().frame;
        self.open(Activation {
            opener: Opener::Call,
            d,
            frame: self.frames.len(),
            block: 0,
            next: 0,
        })?;
        for register in program.emptied(instruction) {
            self.frames[caller].registers[usize::from(register)] = None;
        }
        let (function, version) = (entered.head.function, entered.head.version);
        self.frames.push(Frame::new(function, version, arguments));
        Ok(())
    }
}
