//! What can be seen of a state: what a place holds, the registers of its topmost call, where it
//! stands, what the search of its DISPATCH comes to, and the versions of its live calls.

use crate::calls::{values_of, Asked};
use crate::instruction::Instruction;
use crate::program::{Position, Program, VERSIONS};
use crate::state::{State, Value, ITEMS, REGISTERS};
use std::collections::BTreeSet;

/// Where a state stands in its image.
#[derive(Clone, Copy, PartialEq, Eq, Debug)]
pub struct Where {
    /// The function of the frame that is worked on.
    pub function: u8,
    /// The number of its version.
    pub version: u8,
    /// The block.
    pub block: u8,
    /// The number of the next instruction.
    pub instruction: u8,
    /// Is it the end of the block?
    pub at_end: bool,
    /// The offset of the instruction's record; at the end of the block that of the block.
    pub offset: usize,
}

/// What the search of a DISPATCH comes to.
#[derive(Clone, Copy, PartialEq, Eq, Debug)]
pub struct Search {
    /// How many versions it looks at.
    pub looked: u8,
    /// How many there are.
    pub versions: u8,
}

/// A register of the topmost call: its type, and what it holds; what it does not hold is 0.
#[derive(Clone, Copy, PartialEq, Eq, Debug)]
pub struct Row {
    /// The integer.
    pub integer: i64,
    /// The items of the vector, 0 behind them.
    pub items: [i64; ITEMS],
    /// The declared type.
    pub declared: u8,
    /// 0 nothing, 1 an integer, 2 a vector, 3 a promise.
    pub holds: u8,
    /// How many items the vector has.
    pub length: u8,
    /// The mark of the promise's block.
    pub mark: u8,
}

impl State {
    /// The registers of the topmost call.
    pub fn watch(&self, program: Program) -> Vec<Row> {
        let newest = usize::from(self.calls).saturating_sub(1);
        let Some(frame) = self.live_frames().get(newest) else {
            return vec![];
        };
        let version = program.version(frame.function.into(), frame.version.into());
        let Some(version) = version else {
            return vec![];
        };
        let registers = (0..version.registers().min(REGISTERS)).zip(&frame.registers);
        let rows = registers.map(|(register, value)| {
            let declared = version.type_of(register as u8);
            self.row(program, declared.unwrap_or(0), *value)
        });
        rows.collect()
    }

    /// The record of a register of a type, by what it holds.
    fn row(&self, program: Program, declared: u8, value: Value) -> Row {
        let mut row = Row {
            integer: 0,
            items: [0; ITEMS],
            declared,
            holds: 0,
            length: 0,
            mark: 0,
        };
        match value {
            Value::Empty => {}
            Value::Integer(integer) => (row.holds, row.integer) = (1, integer),
            Value::Vector(place) => {
                let items = self.vectors.get(usize::from(place));
                let items = items.map_or(&[][..], |vector| vector.items());
                (row.holds, row.length) = (2, items.len() as u8);
                row.items[..items.len()].copy_from_slice(items);
            }
            Value::Promise(place) => {
                row.holds = 3;
                row.mark = self.mark(program, place).unwrap_or(0);
            }
        }
        row
    }

    /// The mark of a promise: that of its block, in the version of its frame.
    fn mark(&self, program: Program, place: u8) -> Option<u8> {
        let promise = self.promises.get(usize::from(place))?;
        let frame = self.live_frames().get(usize::from(promise.frame))?;
        let version = program.version(frame.function.into(), frame.version.into())?;
        Some(version.block(promise.block)?.mark())
    }

    /// What a place of a live call holds, registers before names; none where there is none.
    pub fn look(&self, call: usize, place: usize) -> Option<Value> {
        let frame = self.live_frames().get(call)?;
        let mut places = frame.registers.iter().chain(&frame.names);
        places.nth(place).copied()
    }

    /// Where the state stands, ended or not.
    pub fn position(&self, program: Program) -> Option<Where> {
        let here = self.here(program).ok()?;
        let (at_end, offset) = match here.position() {
            Position::Instruction(_, offset) => (false, offset),
            Position::BlockEnd(offset) => (true, offset),
            Position::Outside => return None,
        };
        Some(Where {
            function: here.frame.function,
            version: here.frame.version,
            block: here.activation.block,
            instruction: here.activation.next,
            at_end,
            offset,
        })
    }

    /// The instruction that the state stands at, ended or not.
    pub fn instruction(&self, program: Program) -> Option<Instruction> {
        match self.here(program).ok()?.position() {
            Position::Instruction(instruction, _) => Some(instruction),
            Position::BlockEnd(_) | Position::Outside => None,
        }
    }

    /// What the search of the DISPATCH comes to that the state stands at, ended or not.
    pub fn search(&self, program: Program) -> Option<Search> {
        let here = self.here(program).ok()?;
        let Position::Instruction(
            Instruction::Dispatch {
                function,
                mark,
                returns,
                ref pairs,
                ..
            },
            _,
        ) = here.position()
        else {
            return None;
        };
        let values = values_of(&here.frame, pairs.iter().map(|&(_, register)| register)).ok()?;
        let asked = Asked {
            level: here.version.level(),
            mark,
            returns,
            pairs,
            kinds: self.kinds_in(program, &values).ok()?,
        };
        let (_, looked) = asked.search(program, function);
        let there = |&number: &usize| program.version(function.into(), number).is_some();
        let versions = (0..VERSIONS).filter(there).count() as u8;
        Some(Search { looked, versions })
    }

    /// The versions of the live calls: function and version.
    pub fn live_versions(&self) -> BTreeSet<(u8, u8)> {
        let frames = self.live_frames().iter();
        frames
            .map(|frame| (frame.function, frame.version))
            .collect()
    }
}
