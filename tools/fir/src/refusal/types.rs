//! Question 6: type bytes at their places.

use super::vocabulary::{instruction_name, kind_words};
use super::{Diagnosis, Found, FoundRecord};
use crate::source::Source;
use reference::{Instruction, Kind, Type};

/// Question 6: which type is not allowed at its place, and why.
pub fn type_bytes(source: &Source, found: &Found) -> Option<Diagnosis> {
    match found.record {
        FoundRecord::Version => in_version(source, found),
        FoundRecord::Instruction(_, dispatch @ Instruction::Dispatch { .. }) => {
            in_dispatch(found, dispatch).map(Diagnosis::from)
        }
        _ => None,
    }
}

/// Which type of a DISPATCH is not allowed.
fn in_dispatch(found: &Found, dispatch: &Instruction) -> Option<String> {
    let Instruction::Dispatch {
        returns, arguments, ..
    } = dispatch
    else {
        return None;
    };
    let name = instruction_name(dispatch);
    if let Some(why) = on_return(*returns) {
        return Some(format!("the return type of {name} {why}"));
    }
    let mut arguments = (1..).zip(arguments);
    arguments.find_map(|(place, &(ty, register))| {
        let why = on_parameter(ty)?;
        let register = found.called(register);
        Some(format!(
            "the type of argument {place}, {register}, of {name} {why}"
        ))
    })
}

/// Which type of a VERSION is not allowed, and where its register is declared.
fn in_version(source: &Source, found: &Found) -> Option<Diagnosis> {
    let head = &found.version.head;
    let name = format!("VERSION {}", found.version_name());
    if let Some(why) = on_return(head.returns) {
        return Some(format!("the return type of {name} {why}").into());
    }
    let mut types = (0..).zip(&head.types);
    types.find_map(|(register, &ty)| {
        let why = if register < head.parameters {
            on_parameter(ty)?
        } else {
            on_register(ty)?
        };
        Some(Diagnosis {
            words: format!("the type of {} of {name} {why}", found.called(register)),
            position: source.declared(found.version, register.into()),
        })
    })
}

/// Why a type byte may not stand as a return type.
fn on_return(ty: Type) -> Option<String> {
    let kinds = [Kind::VALUE, Kind::INTEGER, Kind::VECTOR];
    if let Some(why) = on_parameter(ty) {
        Some(why)
    } else if ty.is_borrowed() {
        Some("is borrowed, and only parameters are".to_string())
    } else if !kinds.contains(&ty.kind()) {
        let kind = kind_words(ty.kind())?;
        Some(format!(
            "is {kind}, and a version returns an integer, a vector or a value"
        ))
    } else {
        None
    }
}

/// Why a type byte may not stand on a register that is no parameter.
fn on_register(ty: Type) -> Option<String> {
    let borrowed = || {
        ty.is_borrowed()
            .then(|| "is borrowed, and only parameters are".to_string())
    };
    on_parameter(ty).or_else(borrowed)
}

/// Why a type byte may not stand on a parameter.
fn on_parameter(ty: Type) -> Option<String> {
    let byte = format!("is {}", text::type_text(ty));
    if !ty.kind().known() {
        Some(format!("{byte}, and there is no kind {}", ty.kind().0))
    } else if !ty.ownership().known() {
        Some(format!(
            "{byte}, and there is no ownership {}",
            ty.ownership().0
        ))
    } else if !ty.is_shared() && ty.kind() != Kind::VECTOR {
        Some(format!("{byte}, and only a vector is owned or borrowed"))
    } else {
        None
    }
}
