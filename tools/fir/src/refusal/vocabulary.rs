//! Words for records, types and what instructions do.

use reference::{kinds, Instruction, Kind, Ownership, Type};

/// The name of a record's kind.
pub fn kind_name(kind: u16) -> Option<&'static str> {
    Some(match kind {
        kinds::VERSION => "VERSION",
        kinds::BLOCK => "BLOCK",
        kinds::LEVEL => "LEVEL",
        kinds::MOVE => "MOVE",
        kinds::USE => "USE",
        kinds::DUP => "DUP",
        kinds::VEC => "VEC",
        kinds::LEN => "LEN",
        kinds::GET => "GET",
        kinds::SET => "SET",
        kinds::ARITH => "ARITH",
        kinds::SELECT => "SELECT",
        kinds::CAST => "CAST",
        kinds::NAMED => "NAMED",
        kinds::STORE => "STORE",
        kinds::PROM => "PROM",
        kinds::FORCE => "FORCE",
        kinds::PEEK => "PEEK",
        kinds::POKE => "POKE",
        kinds::CALL => "CALL",
        kinds::DISPATCH => "DISPATCH",
        kinds::SKIP => "SKIP",
        kinds::NARROW_LIT | kinds::LIT => "LIT",
        _ => return None,
    })
}

/// An instruction's name, with what it enters or computes: `CALL of 1.0`, `ARITH add`.
pub fn instruction_name(instruction: &Instruction) -> String {
    match instruction {
        Instruction::Arith { op, .. } => format!("ARITH {}", text::operation_text(*op)),
        Instruction::Call {
            function, version, ..
        } => format!("CALL of {function}.{version}"),
        Instruction::Dispatch { function, .. } => format!("DISPATCH of function {function}"),
        _ => kind_name(instruction.kind())
            .unwrap_or("instruction")
            .to_string(),
    }
}

/// What a register of a type is: `an integer`, `a shared vector`, `of kind value`.
pub fn type_words(ty: Type) -> String {
    let words = match (ty.kind(), ty.ownership()) {
        (Kind::VECTOR, Ownership::OWNED) => "an owned vector",
        (Kind::VECTOR, Ownership::BORROWED) => "a borrowed vector",
        (kind, Ownership::SHARED) => match kind_words(kind) {
            Some(words) => words,
            None => return format!("of type 0x{:02X}", ty.0),
        },
        _ => return format!("of type 0x{:02X}", ty.0),
    };
    words.to_string()
}

/// What a shared register of a kind is; none for a number that is no kind's.
pub fn kind_words(kind: Kind) -> Option<&'static str> {
    Some(match kind {
        Kind::ANY => "of kind any",
        Kind::VALUE => "of kind value",
        Kind::INTEGER => "an integer",
        Kind::VECTOR => "a shared vector",
        Kind::QUIET => "a quiet promise",
        Kind::REFLECTIVE => "a reflective promise",
        _ => return None,
    })
}

/// What is of a type: `an integer`, `a value`, `a shared vector`.
pub fn noun(ty: Type) -> String {
    match ty {
        Type::ANY => "anything".to_string(),
        Type::VALUE => "a value".to_string(),
        _ => type_words(ty),
    }
}
