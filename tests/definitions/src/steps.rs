//! The step: where a run stands, and what each instruction does.

use crate::cells::{kind_of, within};
use crate::instruction::Instruction;
use crate::program::{Block, Position, Program, Version, INSTRUCTIONS};
use crate::state::{
    at, end_unless, stuck_unless, Activation, End, Frame, Halt, Promise, State, Try, Value, Vector,
};

/// Where a run stands: the activation on top, its frame, version and block.
pub struct Here<'p> {
    /// The activation.
    pub activation: Activation,
    /// Its frame.
    pub frame: Frame,
    /// The version of the frame.
    pub version: Version<'p>,
    /// The block.
    pub block: Block<'p>,
}

impl Here<'_> {
    /// What it stands at.
    pub fn position(&self) -> Position {
        self.block.position(self.activation.next)
    }
}

/// The result of an operation in range; UNDEF where there is none.
fn ranged(result: Option<i64>) -> Try<i64> {
    result.ok_or(Halt::Stop(End::Undef))
}

/// The quotient, rounded toward minus infinity.
fn floored(x: i64, y: i64) -> Option<i64> {
    let quotient = x.checked_div(y)?;
    let above = x % y != 0 && (x < 0) != (y < 0);
    Some(quotient - i64::from(above))
}

/// An operation on integers.
fn arith(op: u8, x: i64, y: i64) -> Try<i64> {
    match op {
        0 => ranged(x.checked_add(y)),
        1 => ranged(x.checked_sub(y)),
        2 => ranged(x.checked_mul(y)),
        3 => ranged(floored(x, y)),
        4 => Ok((x < y).into()),
        _ => Err(Halt::Stuck),
    }
}

/// An index as a position in a vector.
fn index(integer: i64, vector: &Vector) -> Try<usize> {
    let position = usize::try_from(integer).ok();
    let inside = position.filter(|&position| position < vector.items().len());
    inside.ok_or(Halt::Stop(End::Undef))
}

impl State {
    /// Where the run stands.
    pub fn here<'p>(&self, program: Program<'p>) -> Try<Here<'p>> {
        let activation = *at(self.live_activations(), self.depth.saturating_sub(1))?;
        let frame = *at(self.live_frames(), activation.frame)?;
        let version = program.version(frame.function.into(), frame.version.into());
        let version = version.ok_or(Halt::Stuck)?;
        let block = version.block(activation.block).ok_or(Halt::Stuck)?;
        Ok(Here {
            activation,
            frame,
            version,
            block,
        })
    }

    /// One step of a run that goes on; what is left where it halts means nothing.
    pub fn advance(&mut self, program: Program) -> Try<()> {
        let here = self.here(program)?;
        match here.position() {
            Position::Instruction(instruction, _) => {
                self.top().next += 1;
                self.execute(program, &here, &instruction)
            }
            Position::BlockEnd(_) => {
                let value = here.frame.value(here.block.result())?;
                self.finish(program, &here, value)
            }
            Position::Outside => Err(Halt::Stuck),
        }
    }

    /// The activation on top, which is there.
    fn top(&mut self) -> &mut Activation {
        &mut self.activations[usize::from(self.depth) - 1]
    }

    /// Executes an instruction where the run stood before it.
    fn execute(&mut self, program: Program, here: &Here, instruction: &Instruction) -> Try<()> {
        let (k, f) = (here.activation.frame, &here.frame);
        match *instruction {
            Instruction::Lit { d, value } => self.assign(k, d, Value::Integer(value)),
            Instruction::Move { d, a } => {
                let fits = self.fits(program, here, d, f.value(a)?)?;
                stuck_unless(fits)?;
                self.assign(k, d, f.value(a)?)
            }
            Instruction::Use { d, a } => {
                let vector = f.vector(a)?;
                self.assign(k, a, Value::Empty)?;
                self.assign(k, d, Value::Vector(vector))
            }
            Instruction::Arith { d, op, a, b } => {
                let (x, y) = (f.integer(a)?, f.integer(b)?);
                self.assign(k, d, Value::Integer(arith(op, x, y)?))
            }
            Instruction::Select { d, c, a, b } => {
                let (z, x, y) = (f.integer(c)?, f.integer(a)?, f.integer(b)?);
                self.assign(k, d, Value::Integer(if z == 0 { y } else { x }))
            }
            Instruction::Cast { d, a } => {
                let fits = self.fits(program, here, d, f.value(a)?)?;
                end_unless(End::Undef, fits)?;
                self.assign(k, d, f.value(a)?)
            }
            Instruction::Named { d, x } => self.assign(k, d, f.name(x)?),
            Instruction::Store { x, a } => self.store(k, x, f.plain(a)?),
            Instruction::Skip { a, n } => match f.integer(a)? {
                0 => self.skip(n),
                _ => Ok(()),
            },
            Instruction::Prom { .. }
            | Instruction::Force { .. }
            | Instruction::Peek { .. }
            | Instruction::Poke { .. } => self.promised(here, instruction),
            Instruction::Call { .. } | Instruction::Dispatch { .. } => {
                self.called(program, here, instruction)
            }
            _ => self.listed(here, instruction),
        }
    }

    /// Is the kind of a value within that of a register's type?
    fn fits(&self, program: Program, here: &Here, d: u8, value: Value) -> Try<bool> {
        let kind = self.kind_in(program, value)?;
        let type_byte = here.version.type_of(d).ok_or(Halt::Stuck)?;
        Ok(within(kind, kind_of(type_byte)))
    }

    /// Goes past n more instructions; stuck where that is further on than any block goes.
    fn skip(&mut self, n: u8) -> Try<()> {
        let next = usize::from(self.top().next) + usize::from(n);
        stuck_unless(next <= INSTRUCTIONS)?;
        self.top().next = next as u8;
        Ok(())
    }

    /// DUP, VEC, LEN, GET and SET.
    fn listed(&mut self, here: &Here, instruction: &Instruction) -> Try<()> {
        let (k, f) = (here.activation.frame, &here.frame);
        let vector_in = |state: &State, register| {
            let number = f.vector(register)?;
            Ok((number, *at(&state.vectors, number)?))
        };
        match *instruction {
            Instruction::Dup { d, a } => {
                let (_, vector) = vector_in(self, a)?;
                self.put_vector(k, d, vector)
            }
            Instruction::Vec { d, ref items } => {
                let items: Try<Vec<i64>> = items.iter().map(|&item| f.integer(item)).collect();
                self.put_vector(k, d, Vector::new(&items?))
            }
            Instruction::Len { d, a } => {
                let (_, vector) = vector_in(self, a)?;
                let length = vector.items().len() as i64;
                self.assign(k, d, Value::Integer(length))
            }
            Instruction::Get { d, a, i } => {
                let (_, vector) = vector_in(self, a)?;
                let position = index(f.integer(i)?, &vector)?;
                self.assign(k, d, Value::Integer(vector.items[position]))
            }
            Instruction::Set { a, i, e } => {
                let (number, vector) = vector_in(self, a)?;
                let (z, x) = (f.integer(i)?, f.integer(e)?);
                self.alone(k, a, number)?;
                let position = index(z, &vector)?;
                self.vectors[usize::from(number)].items[position] = x;
                Ok(())
            }
            _ => unreachable!("{instruction:?} is executed elsewhere"),
        }
    }

    /// A new vector goes to a register.
    fn put_vector(&mut self, k: u8, d: u8, vector: Vector) -> Try<()> {
        let place = self.free_vector()?;
        self.vectors[usize::from(place)] = vector;
        self.assign(k, d, Value::Vector(place))
    }

    /// PROM, FORCE, PEEK and POKE.
    fn promised(&mut self, here: &Here, instruction: &Instruction) -> Try<()> {
        let (k, f) = (here.activation.frame, &here.frame);
        match *instruction {
            Instruction::Prom { d, block } => {
                here.version.block(block).ok_or(Halt::Stuck)?;
                let place = self.free_promise()?;
                self.promises[usize::from(place)] = Promise {
                    frame: k,
                    block,
                    cache: None,
                };
                self.assign(k, d, Value::Promise(place))
            }
            Instruction::Force { d, a } => {
                let number = f.promise(a)?;
                let promise = *at(&self.promises, number)?;
                self.force(k, d, number, promise)
            }
            Instruction::Peek { d, a, x } => {
                let promise = *at(&self.promises, f.promise(a)?)?;
                let value = at(self.live_frames(), promise.frame)?.name(x)?;
                self.assign(k, d, value)
            }
            Instruction::Poke { a, x, e } => {
                let promise = *at(&self.promises, f.promise(a)?)?;
                self.store(promise.frame, x, f.plain(e)?)
            }
            _ => unreachable!("{instruction:?} is executed elsewhere"),
        }
    }
}
