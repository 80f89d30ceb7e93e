//! How activations of calls and forces open and end, and which version a DISPATCH picks.

use crate::cells::{an_integer, is_owned, kind_of, ownership_of, within};
use crate::instruction::Instruction;
use crate::program::{Program, Version, VERSIONS};
use crate::state::{
    at, end_unless, stuck_unless, Activation, End, Frame, Halt, Opener, Promise, State, Status,
    Try, Value, ACTIVATIONS,
};
use crate::steps::Here;

/// Are there as many arguments as parameters, each kind within that of its parameter?
fn matching(kinds: &[u16], parameters: &[u8]) -> bool {
    let mut pairs = kinds.iter().zip(parameters);
    kinds.len() == parameters.len() && pairs.all(|(&kind, &ty)| within(kind, kind_of(ty)))
}

/// What a DISPATCH asks of a version.
pub struct Asked<'i> {
    /// The level of the version that it stands in.
    pub level: u8,
    /// Its mark.
    pub mark: u8,
    /// Its return type.
    pub returns: u8,
    /// Its types with their registers.
    pub pairs: &'i [(u8, u8)],
    /// The kinds of its arguments.
    pub kinds: Vec<u16>,
}

impl Asked<'_> {
    /// Does a version pass?
    fn is_met_by(&self, version: Version) -> bool {
        let parameters = version.parameter_types();
        let mut pairs = self.pairs.iter().zip(&parameters);
        let same = |(&(own, _), &ty): (&(u8, u8), &u8)| ownership_of(own) == ownership_of(ty);
        version.level() <= self.level
            && self.pairs.len() == parameters.len()
            && pairs.all(same)
            && ownership_of(version.returns()) == ownership_of(self.returns)
            && within(kind_of(version.returns()), kind_of(self.returns))
            && version.mark() <= self.mark
            && matching(&self.kinds, &parameters)
    }

    /// The lowest version of a function that passes, and how many are looked at.
    pub fn search<'p>(&self, program: Program<'p>, function: u8) -> (Option<Version<'p>>, u8) {
        let mut looked = 0;
        for number in 0..VERSIONS {
            if let Some(version) = program.version(function.into(), number) {
                looked += 1;
                if self.is_met_by(version) {
                    return (Some(version), looked);
                }
            }
        }
        (None, looked)
    }
}

/// A frame of a version, its parameters filled; values that it has no register for are
/// left out.
pub fn frame_for(version: Version, values: &[Value]) -> Frame {
    let mut frame = Frame::new(version.function(), version.version());
    for (register, &value) in frame.registers.iter_mut().zip(values) {
        *register = value;
    }
    frame
}

/// The values of registers of a frame.
pub fn values_of(frame: &Frame, registers: impl Iterator<Item = u8>) -> Try<Vec<Value>> {
    registers.map(|register| frame.value(register)).collect()
}

impl State {
    /// One more activation, on top.
    fn open(&mut self, activation: Activation) -> Try<()> {
        end_unless(End::Deep, usize::from(self.depth) < ACTIVATIONS)?;
        self.activations[usize::from(self.depth)] = activation;
        self.depth += 1;
        Ok(())
    }

    /// CALL and DISPATCH.
    pub(crate) fn called(
        &mut self,
        program: Program,
        here: &Here,
        instruction: &Instruction,
    ) -> Try<()> {
        match *instruction {
            Instruction::Call {
                d,
                function,
                version,
                ref registers,
            } => {
                let entered = program.version(function.into(), version.into());
                let entered = entered.ok_or(Halt::Stuck)?;
                let values = values_of(&here.frame, registers.iter().copied())?;
                let kinds = self.kinds_in(program, &values)?;
                stuck_unless(matching(&kinds, &entered.parameter_types()))?;
                self.enter(here.activation.frame, d, entered, registers, &values)
            }
            Instruction::Dispatch {
                d,
                function,
                mark,
                returns,
                ref pairs,
            } => {
                let registers: Vec<u8> = pairs.iter().map(|&(_, register)| register).collect();
                let values = values_of(&here.frame, registers.iter().copied())?;
                let asked = Asked {
                    level: here.version.level(),
                    mark,
                    returns,
                    pairs,
                    kinds: self.kinds_in(program, &values)?,
                };
                let (picked, _) = asked.search(program, function);
                let picked = picked.ok_or(Halt::Stop(End::Undef))?;
                self.enter(here.activation.frame, d, picked, &registers, &values)
            }
            _ => unreachable!("{instruction:?} is executed elsewhere"),
        }
    }

    /// The frame k calls a version with the values of its registers, for its register d.
    fn enter(
        &mut self,
        k: u8,
        d: u8,
        entered: Version,
        registers: &[u8],
        values: &[Value],
    ) -> Try<()> {
        self.open(Activation {
            opener: Opener::Call,
            d,
            frame: self.calls,
            block: 0,
            next: 0,
        })?;
        for (ty, &register) in entered.parameter_types().into_iter().zip(registers) {
            if is_owned(ty) {
                self.assign(k, register, Value::Empty)?;
            }
        }
        let frame = self.frames.get_mut(usize::from(self.calls));
        *frame.ok_or(Halt::Stuck)? = frame_for(entered, values);
        self.calls += 1;
        Ok(())
    }

    /// A cached integer at once, or a new activation of the promise's block.
    pub(crate) fn force(&mut self, k: u8, d: u8, number: u8, promise: Promise) -> Try<()> {
        if let Some(integer) = promise.cache {
            return self.assign(k, d, Value::Integer(integer));
        }
        end_unless(End::Undef, !self.is_pending(number))?;
        self.open(Activation {
            opener: Opener::Force(number),
            d,
            frame: promise.frame,
            block: promise.block,
            next: 0,
        })
    }

    /// The activation on top ends with a result.
    pub(crate) fn finish(&mut self, program: Program, here: &Here, value: Value) -> Try<()> {
        let Activation {
            opener,
            d,
            frame,
            block,
            ..
        } = here.activation;
        match opener {
            Opener::Call => {
                let kind = self.kind_in(program, value)?;
                stuck_unless(within(kind, kind_of(here.version.returns())))?;
                let newest = usize::from(frame) + 1 == usize::from(self.calls);
                stuck_unless(block == 0 && newest)?;
                match self.depth {
                    1 => self.done(value),
                    _ => self.back(frame, d, value),
                }
            }
            Opener::Force(number) => {
                let integer = an_integer(value)?;
                at(&self.promises, number)?;
                self.promises[usize::from(number)].cache = Some(integer);
                self.back(self.calls, d, value)
            }
        }
    }

    /// DONE: no call and no activation is left.
    fn done(&mut self, value: Value) -> Try<()> {
        let end = match value {
            Value::Integer(integer) => End::Integer(integer),
            Value::Vector(number) => {
                let vector = *at(&self.vectors, number)?;
                self.result = vector.items;
                End::Vector(vector.items().len() as u8)
            }
            Value::Empty | Value::Promise(_) => return Err(Halt::Stuck),
        };
        (self.calls, self.depth) = (0, 0);
        self.status = Status::Ended(end);
        Ok(())
    }

    /// A value goes to the register d in the frame of the activation below; so many calls
    /// are left.
    fn back(&mut self, calls: u8, d: u8, value: Value) -> Try<()> {
        stuck_unless(self.depth > 1)?;
        let below = *at(&self.activations, self.depth - 2)?;
        (self.calls, self.depth) = (calls, self.depth - 1);
        self.assign(below.frame, d, value)
    }
}
