//! Question 8, "Types fit when": which rule an instruction or a block breaks.

use super::vocabulary::{instruction_name, noun, type_words};
use super::{Found, FoundRecord};
use reference::program::Block;
use reference::questions::{gives, needs, result_fits, Gives};
use reference::{Instruction, Register, Type};

/// Question 8: which types do not fit, and what is needed.
pub fn fit(found: &Found) -> Option<String> {
    match found.record {
        FoundRecord::Version => None,
        FoundRecord::Block(number, block) => result(found, number, block),
        FoundRecord::Instruction(number, instruction) => operands(found, instruction)
            .or_else(|| destination(found, instruction))
            .or_else(|| stands_twice(found, instruction))
            .or_else(|| in_promise_block(found, number, instruction)),
    }
}

/// Why a block's result register does not fit.
fn result(found: &Found, number: usize, block: &Block) -> Option<String> {
    let register = block.head.result;
    let is = type_words(found.version.type_of(register));
    let due = if number > 0 {
        "a promise gives an integer".to_string()
    } else {
        let returns = noun(found.version.head.returns);
        format!("{} returns {returns}", found.version_name())
    };
    let fits = result_fits(found.version, number, block);
    let register = found.called(register);
    (!fits).then(|| format!("BLOCK {number} gives {register}, {is}, and {due}"))
}

/// Which operand is not what the instruction needs.
fn operands(found: &Found, instruction: &Instruction) -> Option<String> {
    let needs = needs(found.program, found.version, instruction);
    let operands = instruction.reads().into_iter().zip(needs);
    operands.enumerate().find_map(|(place, (register, need))| {
        let ty = found.version.type_of(register);
        if need.met_by(ty) {
            return None;
        }
        let name = instruction_name(instruction);
        let needed = needed(found, instruction, place, ty);
        let register = found.called(register);
        Some(format!("{name}{needed}, {register} is {}", type_words(ty)))
    })
}

/// What an instruction needs at a place of its operands, which is of another type.
fn needed(found: &Found, instruction: &Instruction, place: usize, ty: Type) -> String {
    match *instruction {
        Instruction::Move { .. } | Instruction::Cast { .. } if !ty.is_shared() => {
            " needs a shared source".to_string()
        }
        Instruction::Move { d, .. } => {
            let holds = type_words(found.version.type_of(d));
            let d = found.called(d);
            format!(" needs a source within {d}'s kind, {d} is {holds}")
        }
        Instruction::Call { .. } => {
            let parameter = found.program.signature(instruction);
            let parameter =
                parameter.and_then(|signature| signature.parameters.get(place).copied());
            let is = parameter.map(type_words).unwrap_or_default();
            let register = found.called_parameter(instruction, place);
            format!(": parameter {register} is {is}")
        }
        Instruction::Dispatch { ref arguments, .. } => {
            let is = arguments.get(place).map(|&(ty, _)| type_words(ty));
            let is = is.unwrap_or_default();
            format!(": argument {} is declared {is}", place + 1)
        }
        _ => format!(" needs {}", plainly_needed(instruction, place, ty)),
    }
}

/// What an instruction without a signature needs at a place of its operands.
fn plainly_needed(instruction: &Instruction, place: usize, ty: Type) -> &'static str {
    match (instruction, place) {
        (Instruction::Use { .. } | Instruction::Set { .. }, 0) => "an owned vector",
        (Instruction::Dup { .. } | Instruction::Len { .. } | Instruction::Get { .. }, 0) => {
            "a vector"
        }
        (Instruction::Get { .. } | Instruction::Set { .. }, 1) => "an integer as index",
        (Instruction::Set { .. }, _) => "an integer as item",
        (Instruction::Vec { .. }, _) => "integers as items",
        (Instruction::Force { .. } | Instruction::Peek { .. }, _)
        | (Instruction::Poke { .. }, 0) => "a promise",
        (Instruction::Store { .. } | Instruction::Poke { .. }, _) if !ty.is_shared() => {
            "a shared source"
        }
        (Instruction::Store { .. } | Instruction::Poke { .. }, _) => {
            "an integer, a vector or a value"
        }
        (Instruction::Skip { .. }, _) => "an integer",
        _ => "integers",
    }
}

/// Why an instruction's result may not enter its d.
fn destination(found: &Found, instruction: &Instruction) -> Option<String> {
    let d = instruction.destination()?;
    let ty = found.version.type_of(d);
    let gives = gives(found.program, found.version, instruction)?;
    let given = match gives {
        Gives::Plain(kind) => noun(Type::shared(kind)),
        Gives::Fresh => "a fresh vector".to_string(),
    };
    let name = instruction_name(instruction);
    let borrowed = if ty.is_borrowed() {
        ", which nothing enters"
    } else {
        ""
    };
    let is = type_words(ty);
    let d = found.called(d);
    (!gives.enters(ty)).then(|| format!("{name} gives {given}, {d} is {is}{borrowed}"))
}

/// Which register that a call empties stands in it more than once.
fn stands_twice(found: &Found, instruction: &Instruction) -> Option<String> {
    let reads = instruction.reads();
    let times = |r: Register| reads.iter().filter(|&&read| read == r).count();
    let mut emptied = found.program.emptied(instruction).into_iter();
    let register = emptied.find(|&register| times(register) > 1)?;
    let (name, times) = (instruction_name(instruction), times(register));
    let register = found.called(register);
    Some(format!(
        "{name} empties {register}, which stands in it {times} times"
    ))
}

/// Why an instruction may not stand in a promise block.
fn in_promise_block(found: &Found, number: usize, instruction: &Instruction) -> Option<String> {
    if number == 0 {
        return None;
    }
    let name = instruction_name(instruction);
    let does = match (instruction, found.program.emptied(instruction).first()) {
        (Instruction::Set { a, .. }, _) => format!("sets an item of {}", found.called(*a)),
        (_, Some(register)) => format!("empties {}", found.called(*register)),
        _ => return None,
    };
    Some(format!(
        "{name} {does} in block {number}, and a promise block sets and empties nothing"
    ))
}
