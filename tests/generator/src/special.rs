//! Functions that call themselves: without end, hoarding, or down a ladder of arguments.

use crate::draft::{DraftBlock, DraftVersion};
use crate::fact::Fact;
use crate::random::Random;
use crate::world::Callable;
use reference::bounds::{BLOCKS, LISTED, NAMES, PARAMETERS, REGISTERS};
use reference::program::Signature;
use reference::{kinds, Instruction, Integer, Level, Mark, Name, Register, Type};

/// A function that calls itself.
#[derive(Clone, Copy, PartialEq, Eq, Debug)]
pub enum Special {
    /// It calls itself until DEEP.
    Endless,
    /// It holds vectors and calls itself, mostly until VECTORS.
    Vectors,
    /// It holds promises and calls itself, mostly until PROMISES.
    Promises,
    /// It calls itself while its first argument is a vector.
    Ladder,
}

/// The versions of a special function, all of a level, and the one that is to be
/// called.
pub fn special(
    random: &mut Random,
    special: Special,
    level: Level,
) -> (Vec<DraftVersion>, Callable) {
    match special {
        Special::Endless => looping(random, level, hoard_nothing),
        Special::Vectors => looping(random, level, hoard_vectors),
        Special::Promises => looping(random, level, hoard_promises),
        Special::Ladder => ladder(random, level),
    }
}

/// What a looping function does before it calls itself.
type Hoard = fn(&mut Random, &mut DraftVersion);

/// A version 0.0 of one integer that hoards and then calls itself, by CALL, by
/// DISPATCH, or in a promise block.
fn looping(random: &mut Random, level: Level, hoard: Hoard) -> (Vec<DraftVersion>, Callable) {
    let body = DraftBlock {
        mark: Mark::QUIET,
        result: 0,
        instructions: Vec::new(),
    };
    let mut version = DraftVersion {
        function: 0,
        version: 0,
        parameters: 1,
        returns: Type::INTEGER,
        types: vec![Type::INTEGER],
        level,
        blocks: vec![body],
    };
    hoard(random, &mut version);
    call_itself(random, &mut version);
    let callable = Callable {
        function: 0,
        version: 0,
        signature: Signature {
            parameters: vec![Type::INTEGER],
            returns: Type::INTEGER,
            mark: Mark::QUIET,
        },
        level,
        cost: 100,
        gives: Fact::MODERATE,
    };
    (vec![version], callable)
}

/// Adds the call of the version itself.
fn call_itself(random: &mut Random, version: &mut DraftVersion) {
    let call = Instruction::Call {
        d: 0,
        function: 0,
        version: 0,
        arguments: vec![0],
    };
    let dispatch = Instruction::Dispatch {
        d: 0,
        function: 0,
        mark: Mark::QUIET,
        returns: Type::INTEGER,
        arguments: vec![(Type::INTEGER, 0)],
    };
    let again = random.pick(&[call, dispatch]);
    if random.one_in(3) && version.blocks.len() < BLOCKS && version.types.len() < REGISTERS {
        let promise = version.types.len() as Register;
        version.types.push(Type::shared(Mark::QUIET.promise()));
        let block = add_block(version, vec![again]);
        let body = &mut version.blocks[0].instructions;
        body.push(Instruction::Prom { d: promise, block });
        body.push(Instruction::Force { d: 0, a: promise });
    } else {
        version.blocks[0].instructions.push(again);
    }
}

/// Adds a quiet promise block with r0 as its result; its number.
fn add_block(version: &mut DraftVersion, instructions: Vec<Instruction>) -> u8 {
    version.blocks.push(DraftBlock {
        mark: Mark::QUIET,
        result: 0,
        instructions,
    });
    version.blocks.len() as u8 - 1
}

/// Does a little, so that calls differ in length.
fn hoard_nothing(random: &mut Random, version: &mut DraftVersion) {
    for _ in 0..random.below(4) {
        let less = Instruction::Arith {
            d: 0,
            op: kinds::LESS,
            a: 0,
            b: 0,
        };
        version.blocks[0].instructions.push(less);
    }
}

/// Fills registers and names with vectors.
fn hoard_vectors(random: &mut Random, version: &mut DraftVersion) {
    for _ in 0..1 + random.below(REGISTERS - 2) {
        let d = version.types.len() as Register;
        let ty = random.pick(&[Type::OWNED, Type::VECTOR, Type::VALUE]);
        version.types.push(ty);
        let items = vec![0; random.below(LISTED + 1)];
        let body = &mut version.blocks[0].instructions;
        body.push(Instruction::Vec { d, items });
        if ty.is_shared() && random.one_in(3) {
            let x = random.below(NAMES) as Name;
            body.push(Instruction::Store { x, a: d });
            if ty == Type::VALUE {
                let value = random.below(9) as Integer;
                body.push(Instruction::Lit { d, value });
            }
        }
    }
}

/// Fills registers with promises, some of them forced.
fn hoard_promises(random: &mut Random, version: &mut DraftVersion) {
    for _ in 0..1 + random.below(BLOCKS - 1) {
        let d = version.types.len() as Register;
        let promise = Type::shared(Mark::QUIET.promise());
        let ty = random.pick(&[promise, Type::ANY]);
        version.types.push(ty);
        let block = add_block(version, vec![]);
        let body = &mut version.blocks[0].instructions;
        body.push(Instruction::Prom { d, block });
        if ty == promise && random.one_in(3) {
            body.push(Instruction::Force { d: 0, a: d });
        }
    }
}

/// Version 0.0 takes an integer first and gives it; version 0.1 takes a vector
/// first and dispatches on its other arguments and an integer after them.
fn ladder(random: &mut Random, level: Level) -> (Vec<DraftVersion>, Callable) {
    let count = 2 + random.below(PARAMETERS - 1);
    let parameters = |first: Type| {
        let mut parameters = vec![Type::VALUE; count];
        parameters[0] = first;
        parameters
    };
    let version = |number, first, result, instructions| DraftVersion {
        version: number,
        level,
        ..ladder_version(parameters(first), result, instructions)
    };
    let bottom = version(0, Type::INTEGER, 0, vec![]);
    let given = count as Register;
    let instructions = rung(given, random.between(-9, 9));
    let rung = version(1, Type::VECTOR, given, instructions);
    let callable = Callable {
        function: 0,
        version: 1,
        signature: Signature {
            parameters: parameters(Type::VECTOR),
            returns: Type::INTEGER,
            mark: Mark::QUIET,
        },
        level,
        cost: 6 * count,
        gives: Fact::MODERATE,
    };
    (vec![bottom, rung], callable)
}

/// Dispatches on the arguments from the second on and on a literal, and adds
/// the length of the first to what that gives.
fn rung(given: Register, value: Integer) -> Vec<Instruction> {
    let length = given + 1;
    vec![
        Instruction::Lit { d: given, value },
        Instruction::Dispatch {
            d: given,
            function: 0,
            mark: Mark::QUIET,
            returns: Type::INTEGER,
            arguments: (1..=given).map(|r| (Type::VALUE, r)).collect(),
        },
        Instruction::Len { d: length, a: 0 },
        Instruction::Arith {
            d: given,
            op: kinds::ADD,
            a: given,
            b: length,
        },
    ]
}

/// A version of the ladder, the first one, with two more integer registers.
fn ladder_version(
    parameters: Vec<Type>,
    result: Register,
    instructions: Vec<Instruction>,
) -> DraftVersion {
    let count = parameters.len();
    let mut types = parameters;
    types.extend([Type::INTEGER; 2]);
    DraftVersion {
        function: 0,
        version: 0,
        parameters: count,
        returns: Type::INTEGER,
        types,
        level: Level::PORTAL,
        blocks: vec![DraftBlock {
            mark: Mark::QUIET,
            result,
            instructions,
        }],
    }
}
