//! "Steps": the state of a run.

use crate::bounds::{Integer, NAMES, PROMISES, REGISTERS, VECTORS};
use crate::instruction::{Instruction, Register};
use crate::program::{Block, Program, Version};
use crate::types::Kind;
use std::collections::BTreeSet;

/// What a register or a name holds.
#[derive(Clone, Copy, PartialEq, Eq, Hash, Debug)]
pub enum Value {
    /// An integer.
    Integer(Integer),
    /// The vector at a place.
    Vector(usize),
    /// The promise at a place.
    Promise(usize),
}

/// The frame of a live call.
#[derive(Clone, PartialEq, Eq, Debug)]
pub struct Frame {
    /// The function of the version entered.
    pub function: u8,
    /// The number of the version entered.
    pub version: u8,
    /// The register places; those that the version does not declare stay empty.
    pub registers: [Option<Value>; REGISTERS],
    /// The named variables; none where unset.
    pub names: [Option<Value>; NAMES],
}

impl Frame {
    /// The frame that a call opens: the arguments in the first registers, no name set.
    pub fn new(function: u8, version: u8, arguments: &[Value]) -> Frame {
        let mut registers = [None; REGISTERS];
        for (place, &argument) in registers.iter_mut().zip(arguments) {
            *place = Some(argument);
        }
        Frame {
            function,
            version,
            registers,
            names: [None; NAMES],
        }
    }
}

/// What opened an activation.
#[derive(Clone, Copy, PartialEq, Eq, Debug)]
pub enum Opener {
    /// A call, or the start of the run.
    Call,
    /// A force of the promise at a place.
    Force(usize),
}

/// A block that is being executed in a frame.
#[derive(Clone, PartialEq, Eq, Debug)]
pub struct Activation {
    /// What opened it.
    pub opener: Opener,
    /// The register, of the frame of the activation below, that takes its
    /// result; 0 in the first activation.
    pub d: Register,
    /// The frame whose registers and names it works on.
    pub frame: usize,
    /// The block's number.
    pub block: u8,
    /// The number of the next instruction; the instruction count at the block end.
    pub next: usize,
}

/// A delayed block.
#[derive(Clone, PartialEq, Eq, Debug)]
pub struct Promise {
    /// The frame it works on.
    pub frame: usize,
    /// The block's number in the version of that frame.
    pub block: u8,
    /// The integer that a force of it gave.
    pub cache: Option<Integer>,
}

/// How a run ended.
#[derive(Clone, Copy, PartialEq, Eq, Hash, Debug)]
pub enum End {
    /// DONE with an integer.
    Integer(Integer),
    /// DONE with a vector of this length.
    Vector(usize),
    /// UNDEF.
    Undef,
    /// A 33rd activation was needed.
    Deep,
    /// A 65th vector was needed.
    Vectors,
    /// A 65th promise was needed.
    Promises,
}

/// Whether a run goes on.
#[derive(Clone, Copy, PartialEq, Eq, Debug)]
pub enum Status {
    /// It goes on.
    Running,
    /// It ended so.
    Ended(End),
}

/// The state of a run.
#[derive(Clone, PartialEq, Eq, Debug)]
pub struct State {
    /// The frames of the live calls, the first call's first.
    pub frames: Vec<Frame>,
    /// The live activations, the newest last.
    pub activations: Vec<Activation>,
    /// The vectors by place; what nothing refers to is without meaning.
    pub vectors: [Option<Vec<Integer>>; VECTORS],
    /// The promises by place; what nothing refers to is without meaning.
    pub promises: [Option<Promise>; PROMISES],
    /// Whether the run goes on.
    pub status: Status,
    /// The items of a vector result; else nothing.
    pub result: Vec<Integer>,
}

impl State {
    /// The state of a run before its first step, in block 0 of its first frame.
    pub fn first(frame: Frame, vectors: Vec<Vec<Integer>>) -> State {
        let mut state = State {
            frames: vec![frame],
            activations: vec![Activation {
                opener: Opener::Call,
                d: 0,
                frame: 0,
                block: 0,
                next: 0,
            }],
            vectors: [const { None }; VECTORS],
            promises: [const { None }; PROMISES],
            status: Status::Running,
            result: Vec::new(),
        };
        for (place, vector) in state.vectors.iter_mut().zip(vectors) {
            *place = Some(vector);
        }
        state
    }

    /// The numbers of the versions that have a live call: function and version.
    pub fn live_versions(&self) -> BTreeSet<(u8, u8)> {
        let numbers = |frame: &Frame| (frame.function, frame.version);
        self.frames.iter().map(numbers).collect()
    }

    /// The version that a frame entered, if the image has it.
    pub fn version<'p>(&self, program: &'p Program, frame: usize) -> Option<&'p Version> {
        let frame = self.frames.get(frame)?;
        program.version(frame.function.into(), frame.version.into())
    }

    /// The block of this number in the version of a frame, if there is one.
    pub fn block<'p>(&self, program: &'p Program, frame: usize, block: u8) -> Option<&'p Block> {
        self.version(program, frame)?.blocks.get(usize::from(block))
    }

    /// The instruction that the next step is to execute; none at a block end.
    pub fn instruction<'p>(&self, program: &'p Program) -> Option<&'p Instruction> {
        let top = self.activations.last()?;
        let block = self.block(program, top.frame, top.block)?;
        block.instructions.get(top.next).map(|placed| &placed.item)
    }

    /// The kind of a value: integer 2, vector 3, promise 4 or 5 by its block's
    /// mark; none if it points outside the state or the image.
    pub fn kind(&self, program: &Program, value: Value) -> Option<Kind> {
        match value {
            Value::Integer(_) => Some(Kind::INTEGER),
            Value::Vector(place) => {
                self.vectors.get(place)?.as_ref()?;
                Some(Kind::VECTOR)
            }
            Value::Promise(place) => {
                let promise = self.promises.get(place)?.as_ref()?;
                let block = self.block(program, promise.frame, promise.block)?;
                Some(block.head.mark.promise())
            }
        }
    }

    /// What the registers and names of the live calls hold, in order.
    pub fn held(&self) -> impl Iterator<Item = Value> + '_ {
        let places = |frame: &'_ Frame| frame.registers.into_iter().chain(frame.names);
        self.frames.iter().flat_map(places).flatten()
    }
}
