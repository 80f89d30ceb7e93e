//! Ways to fail question 6.

use super::edit::{change, of_kind, site};
use super::Breaker;
use crate::draft::Draft;
use crate::random::Random;
use reference::{kinds, Instruction, Kind, Ownership, Type};

/// Ways to fail question 6.
pub const BREAKERS: [Breaker; 5] = [
    return_type,
    register_type,
    borrowed_register,
    dispatch_return,
    dispatch_argument,
];

/// A byte that is not allowed, near to those that are or anywhere.
fn wrong(random: &mut Random, allowed: impl Fn(Type) -> bool) -> Type {
    let near = [
        0x00, 0x04, 0x05, 0x06, 0x0F, 0x10, 0x12, 0x14, 0x23, 0x33, 0x22, 0x83,
    ];
    loop {
        let choices = [random.pick(&near), random.byte()];
        let ty = Type(random.pick(&choices));
        if !allowed(ty) {
            return ty;
        }
    }
}

fn return_type(random: &mut Random, draft: &Draft) -> Option<Vec<u8>> {
    let mut draft = draft.clone();
    let index = random.below(draft.versions.len());
    draft.versions[index].returns = wrong(random, Type::allowed_on_return);
    Some(draft.bytes())
}

fn register_type(random: &mut Random, draft: &Draft) -> Option<Vec<u8>> {
    let mut draft = draft.clone();
    let index = random.below(draft.versions.len());
    let version = &mut draft.versions[index];
    let register = random.below(version.types.len());
    version.types[register] = if register < version.parameters {
        wrong(random, Type::allowed_on_parameter)
    } else {
        wrong(random, Type::allowed_on_register)
    };
    Some(draft.bytes())
}

fn borrowed_register(random: &mut Random, draft: &Draft) -> Option<Vec<u8>> {
    let mut draft = draft.clone();
    let index = random.below(draft.versions.len());
    let version = &mut draft.versions[index];
    let others: Vec<usize> = (version.parameters..version.types.len()).collect();
    let register = random.choose(&others)?;
    version.types[register] = Type::new(Kind::VECTOR, Ownership::BORROWED);
    Some(draft.bytes())
}

fn dispatch_return(random: &mut Random, draft: &Draft) -> Option<Vec<u8>> {
    let dispatches = of_kind(kinds::DISPATCH);
    change(random, draft, dispatches, |random, dispatch| {
        if let Instruction::Dispatch { returns, .. } = dispatch {
            *returns = wrong(random, Type::allowed_on_return);
        }
    })
}

fn dispatch_argument(random: &mut Random, draft: &Draft) -> Option<Vec<u8>> {
    let mut draft = draft.clone();
    let site = site(random, &draft, of_kind(kinds::DISPATCH))?;
    let Instruction::Dispatch { arguments, .. } = draft.at(site) else {
        return None;
    };
    if arguments.is_empty() {
        return None;
    }
    let argument = random.below(arguments.len());
    arguments[argument].0 = wrong(random, Type::allowed_on_parameter);
    Some(draft.bytes())
}
