//! The text of each instruction, by kind number, both ways.

use crate::cursor::{Cursor, Reason};
use crate::names::Registers;
use crate::vocabulary::{mark_text, operation_text, type_text, OPERATIONS};
use reference::{Instruction, Name, Register, Type};

/// An instruction as it is written, in a version whose registers are called so.
pub fn print(instruction: &Instruction, called: &Registers) -> String {
    use Instruction as I;
    let r = |register: Register| called.text(register);
    match *instruction {
        I::Lit { d, value } => format!("{} = lit {value}", r(d)),
        I::Move { d, a } => format!("{} = move {}", r(d), r(a)),
        I::Use { d, a } => format!("{} = use {}", r(d), r(a)),
        I::Dup { d, a } => format!("{} = dup {}", r(d), r(a)),
        I::Vec { d, ref items } => format!("{} = vec [{}]", r(d), listed(items, called)),
        I::Len { d, a } => format!("{} = len {}", r(d), r(a)),
        I::Get { d, a, i } => format!("{} = get {}[{}]", r(d), r(a), r(i)),
        I::Set { a, i, e } => format!("set {}[{}] = {}", r(a), r(i), r(e)),
        I::Arith { d, op, a, b } => {
            format!("{} = {} {}, {}", r(d), operation_text(op), r(a), r(b))
        }
        I::Select { d, c, a, b } => {
            format!("{} = select {} ? {} : {}", r(d), r(c), r(a), r(b))
        }
        I::Cast { d, a } => format!("{} = cast {}", r(d), r(a)),
        I::Named { d, x } => format!("{} = named x{x}", r(d)),
        I::Store { x, a } => format!("store x{x} = {}", r(a)),
        I::Prom { d, block } => format!("{} = prom {block}", r(d)),
        I::Force { d, a } => format!("{} = force {}", r(d), r(a)),
        I::Peek { d, a, x } => format!("{} = peek {}.x{x}", r(d), r(a)),
        I::Poke { a, x, e } => format!("poke {}.x{x} = {}", r(a), r(e)),
        I::Call { .. } | I::Dispatch { .. } => print_call(instruction, called),
        I::Skip { a, n } => format!("skip {n} unless {}", r(a)),
    }
}

/// A CALL or a DISPATCH as it is written.
fn print_call(instruction: &Instruction, called: &Registers) -> String {
    match *instruction {
        Instruction::Call {
            d,
            function,
            version,
            ref arguments,
        } => {
            let (d, arguments) = (called.text(d), listed(arguments, called));
            format!("{d} = call {function}.{version}({arguments})")
        }
        Instruction::Dispatch {
            d,
            function,
            mark,
            returns,
            ref arguments,
        } => {
            let (d, returns, mark) = (called.text(d), type_text(returns), mark_text(mark));
            let typed = typed(arguments.iter().map(|&(ty, r)| (r, ty)), called);
            format!("{d} = dispatch {function}({typed}) -> {returns} {mark}")
        }
        _ => String::new(),
    }
}

/// Registers with commas between them.
fn listed(registers: &[Register], called: &Registers) -> String {
    let names: Vec<String> = registers.iter().map(|&r| called.text(r)).collect();
    names.join(", ")
}

/// Registers with their types, with commas between them.
pub fn typed(registers: impl Iterator<Item = (Register, Type)>, called: &Registers) -> String {
    let typed: Vec<String> = registers
        .map(|(r, ty)| format!("{}: {}", called.text(r), type_text(ty)))
        .collect();
    typed.join(", ")
}

/// The instruction that a line holds.
pub fn parse(line: &mut Cursor) -> Result<Instruction, Reason> {
    if line.at_register() {
        let d = line.register()?;
        line.sign("=")?;
        parse_with_destination(line, d)
    } else if line.at_unknown_register() {
        Err(line.unknown_register())
    } else {
        parse_without_destination(line)
    }
}

/// The instructions that have a d, after `d =`.
fn parse_with_destination(line: &mut Cursor, d: Register) -> Result<Instruction, Reason> {
    use Instruction as I;
    let unknown = match line.at_register() {
        true => line.expected("an instruction such as move or add"),
        false => line.expected_word("an instruction"),
    };
    match line.word() {
        "lit" => line.literal().map(|value| I::Lit { d, value }),
        "move" => line.register().map(|a| I::Move { d, a }),
        "use" => line.register().map(|a| I::Use { d, a }),
        "dup" => line.register().map(|a| I::Dup { d, a }),
        "vec" => parse_vec(line, d),
        "len" => line.register().map(|a| I::Len { d, a }),
        "get" => parse_item(line).map(|(a, i)| I::Get { d, a, i }),
        "arith" => {
            let op = line.number()?;
            parse_arith(line, d, op)
        }
        "select" => parse_select(line, d),
        "cast" => line.register().map(|a| I::Cast { d, a }),
        "named" => line.name().map(|x| I::Named { d, x }),
        "prom" => line.number().map(|block| I::Prom { d, block }),
        "force" => line.register().map(|a| I::Force { d, a }),
        "peek" => parse_variable(line).map(|(a, x)| I::Peek { d, a, x }),
        "call" => parse_call(line, d),
        "dispatch" => parse_dispatch(line, d),
        word => match OPERATIONS.iter().position(|&op| op == word) {
            Some(op) => parse_arith(line, d, op as u8),
            None => Err(unknown),
        },
    }
}

/// SET, STORE, POKE and SKIP.
fn parse_without_destination(line: &mut Cursor) -> Result<Instruction, Reason> {
    let unknown = line.expected_word("version, registers, level, block, bytes or an instruction");
    match line.word() {
        "set" => {
            let ((a, i), e) = parse_assignment(line, parse_item)?;
            Ok(Instruction::Set { a, i, e })
        }
        "store" => {
            let (x, a) = parse_assignment(line, Cursor::name)?;
            Ok(Instruction::Store { x, a })
        }
        "poke" => {
            let ((a, x), e) = parse_assignment(line, parse_variable)?;
            Ok(Instruction::Poke { a, x, e })
        }
        "skip" => parse_skip(line),
        _ => Err(unknown),
    }
}

/// Something that is assigned, `=`, and a register.
fn parse_assignment<'a, T>(
    line: &mut Cursor<'a>,
    assigned: impl FnOnce(&mut Cursor<'a>) -> Result<T, Reason>,
) -> Result<(T, Register), Reason> {
    let assigned = assigned(line)?;
    line.sign("=")?;
    Ok((assigned, line.register()?))
}

/// A vector's item, such as `r0[r1]`.
fn parse_item(line: &mut Cursor) -> Result<(Register, Register), Reason> {
    let vector = line.register()?;
    line.sign("[")?;
    let index = line.register()?;
    line.sign("]")?;
    Ok((vector, index))
}

/// A named variable of a promise's frame, such as `r0.x1`.
fn parse_variable(line: &mut Cursor) -> Result<(Register, Name), Reason> {
    let promise = line.register()?;
    line.sign(".")?;
    Ok((promise, line.name()?))
}

/// A VEC after its word.
fn parse_vec(line: &mut Cursor, d: Register) -> Result<Instruction, Reason> {
    let items = line.list("[", "]", Cursor::register)?;
    Ok(Instruction::Vec { d, items })
}

/// An ARITH after its operation.
fn parse_arith(line: &mut Cursor, d: Register, op: u8) -> Result<Instruction, Reason> {
    let a = line.register()?;
    line.sign(",")?;
    let b = line.register()?;
    Ok(Instruction::Arith { d, op, a, b })
}

/// A SELECT after its word.
fn parse_select(line: &mut Cursor, d: Register) -> Result<Instruction, Reason> {
    let c = line.register()?;
    line.sign("?")?;
    let a = line.register()?;
    line.sign(":")?;
    let b = line.register()?;
    Ok(Instruction::Select { d, c, a, b })
}

/// A CALL after its word.
fn parse_call(line: &mut Cursor, d: Register) -> Result<Instruction, Reason> {
    let function = line.number()?;
    line.sign(".")?;
    let version = line.number()?;
    let arguments = line.list("(", ")", Cursor::register)?;
    Ok(Instruction::Call {
        d,
        function,
        version,
        arguments,
    })
}

/// A DISPATCH after its word.
fn parse_dispatch(line: &mut Cursor, d: Register) -> Result<Instruction, Reason> {
    let function = line.number()?;
    let typed = line.list("(", ")", Cursor::typed)?;
    line.sign("->")?;
    let returns = line.ty()?;
    let mark = line.mark()?;
    Ok(Instruction::Dispatch {
        d,
        function,
        mark,
        returns,
        arguments: typed.into_iter().map(|(r, ty)| (ty, r)).collect(),
    })
}

/// A SKIP after its word.
fn parse_skip(line: &mut Cursor) -> Result<Instruction, Reason> {
    let n = line.number()?;
    if !line.take_word("unless") {
        return Err(line.expected("`unless`"));
    }
    let a = line.register()?;
    Ok(Instruction::Skip { a, n })
}
