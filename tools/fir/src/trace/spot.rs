//! Where a run stands in its program.

use crate::place::version_name;
use library::{Activation, State, FIR_REGISTERS};
use reference::program::{Block, Program, Version};
use reference::record::Placed;
use reference::{Instruction, Register};
use text::{Names, Registers};

/// A program, and what its text calls registers.
#[derive(Clone, Copy)]
pub struct Script<'p> {
    /// The program.
    pub program: &'p Program,
    /// The names.
    pub names: &'p Names,
}

impl<'p> Script<'p> {
    /// What the text calls the registers of a call in a state.
    pub fn registers(&self, state: &State, call: usize) -> &'p Registers {
        let (function, version) = state.owner(call).unwrap_or((u8::MAX, u8::MAX));
        self.names.of(function, version)
    }

    /// What a register or a name of a call in a state is called.
    pub fn cell(&self, state: &State, call: usize, place: usize) -> String {
        cell_name(self.registers(state, call), place)
    }
}

/// What a register or a name is called, by its place.
pub fn cell_name(registers: &Registers, place: usize) -> String {
    match place.checked_sub(FIR_REGISTERS) {
        Some(name) => format!("x{name}"),
        None => registers.text(u8::try_from(place).unwrap_or(u8::MAX)),
    }
}

/// The instruction or the block end that the next step executes.
pub struct Spot<'p> {
    /// The program that the run goes by, with its names.
    pub script: Script<'p>,
    /// The version of the call that the newest activation works on.
    pub version: &'p Version,
    /// The newest activation.
    pub activation: Activation,
    block: &'p Block,
    instruction: Option<&'p Placed<Instruction>>,
}

impl<'p> Spot<'p> {
    /// Where a state stands; none where it stands nowhere in the program.
    pub fn of(script: Script<'p>, state: &State) -> Option<Spot<'p>> {
        Spot::at(script, state, state.top()?)
    }

    /// Where an activation of a state stands, or goes on.
    pub fn at(script: Script<'p>, state: &State, activation: Activation) -> Option<Spot<'p>> {
        let (function, version) = state.owner(activation.call)?;
        let version = script.program.version(function.into(), version.into())?;
        let block = version.blocks.get(activation.block)?;
        Some(Spot {
            script,
            version,
            activation,
            block,
            instruction: block.instructions.get(activation.next),
        })
    }

    /// The instruction; none at the end of the block.
    pub fn instruction(&self) -> Option<&'p Instruction> {
        self.instruction.map(|placed| &placed.item)
    }

    /// The offset of the instruction; at the end of a block that of the BLOCK.
    pub fn offset(&self) -> usize {
        self.instruction
            .map_or(self.block.offset, |placed| placed.offset)
    }

    /// The instruction as text, or the end of the block and what it gives.
    pub fn text(&self) -> String {
        match self.instruction() {
            Some(instruction) => text::instruction_text(instruction, self.registers()),
            None => format!("end -> {}", self.called(self.result())),
        }
    }

    /// What the text calls the registers of its version.
    fn registers(&self) -> &'p Registers {
        let head = &self.version.head;
        self.script.names.of(head.function, head.version)
    }

    /// What the text calls a register of its version.
    pub fn called(&self, register: Register) -> String {
        self.registers().text(register)
    }

    /// The register whose value the block gives at its end.
    pub fn result(&self) -> u8 {
        self.block.head.result
    }

    /// The version's numbers: `0.0`.
    pub fn version_name(&self) -> String {
        version_name(self.version)
    }
}
