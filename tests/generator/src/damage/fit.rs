//! Ways to fail question 8.

use super::edit::{
    add_register, added, append, block, operand_fields, register_fields, site, swap_register,
};
use super::Breaker;
use crate::draft::{Draft, DraftBlock, DraftVersion};
use crate::random::Random;
use reference::{Instruction, Kind, Mark, Register, Type};

/// Ways to fail question 8.
pub const BREAKERS: [Breaker; 13] = [
    operand,
    operand,
    destination,
    declared_type,
    return_type,
    result_register,
    set_of_a_shared_vector,
    move_of_an_owned_vector,
    use_in_a_promise_block,
    set_in_a_promise_block,
    emptying_call_in_a_promise_block,
    owned_register_twice,
    borrowed_register_assigned,
];

/// A type that seldom does where the given one did.
fn unlike(random: &mut Random, ty: Type) -> Type {
    let quiet = Type::shared(Kind::QUIET);
    match ty.kind() {
        Kind::INTEGER => random.pick(&[Type::OWNED, Type::VECTOR, quiet, Type::ANY]),
        Kind::VECTOR => random.pick(&[Type::INTEGER, quiet, Type::ANY, Type::VALUE]),
        Kind::QUIET | Kind::REFLECTIVE => random.pick(&[Type::INTEGER, Type::OWNED, Type::ANY]),
        _ => Type::OWNED,
    }
}

fn operand(random: &mut Random, draft: &Draft) -> Option<Vec<u8>> {
    swap_register(random, draft, operand_fields, unlike)
}

fn destination(random: &mut Random, draft: &Draft) -> Option<Vec<u8>> {
    let fields = |instruction: &Instruction| {
        let mut fields = register_fields(instruction);
        fields.truncate(usize::from(instruction.destination().is_some()));
        fields
    };
    swap_register(random, draft, fields, unlike)
}

fn declared_type(random: &mut Random, draft: &Draft) -> Option<Vec<u8>> {
    let mut draft = draft.clone();
    let site = site(random, &draft, |i| i.assigns().is_some())?;
    let register = draft.at(site).assigns()?;
    let version = &mut draft.versions[site.version];
    let ty = &mut version.types[usize::from(register)];
    *ty = unlike(random, *ty);
    Some(draft.bytes())
}

fn return_type(random: &mut Random, draft: &Draft) -> Option<Vec<u8>> {
    let mut draft = draft.clone();
    let index = random.below(draft.versions.len());
    let returns = &mut draft.versions[index].returns;
    *returns = match returns.kind() {
        Kind::INTEGER => random.pick(&[Type::VECTOR, Type::OWNED]),
        _ => Type::INTEGER,
    };
    Some(draft.bytes())
}

fn result_register(random: &mut Random, draft: &Draft) -> Option<Vec<u8>> {
    let mut draft = draft.clone();
    let (index, number) = block(random, &draft, |_, _| true)?;
    let version = &mut draft.versions[index];
    let promise = Type::shared(Kind::QUIET);
    let ty = random.pick(&[Type::ANY, promise]);
    let new = add_register(version, ty)?;
    version.blocks[number].result = new;
    Some(draft.bytes())
}

/// Is the block of this number a body?
fn body(number: usize, _: &DraftBlock) -> bool {
    number == 0
}

/// Is the block of this number a promise block?
fn promised(number: usize, _: &DraftBlock) -> bool {
    number > 0
}

/// SET on a new vector in the first register, its index and item in the second.
fn set(registers: &[Register]) -> Vec<Instruction> {
    let (a, i) = (registers[0], registers[1]);
    let items = vec![i];
    vec![
        Instruction::Lit { d: i, value: 0 },
        Instruction::Vec { d: a, items },
        Instruction::Set { a, i, e: i },
    ]
}

fn set_of_a_shared_vector(random: &mut Random, draft: &Draft) -> Option<Vec<u8>> {
    added(random, draft, body, &[Type::VECTOR, Type::INTEGER], set)
}

fn move_of_an_owned_vector(random: &mut Random, draft: &Draft) -> Option<Vec<u8>> {
    let wide = random.pick(&[Type::ANY, Type::VECTOR]);
    added(random, draft, body, &[Type::OWNED, wide], |r| {
        let (d, a, items) = (r[1], r[0], vec![]);
        vec![Instruction::Vec { d: a, items }, Instruction::Move { d, a }]
    })
}

fn use_in_a_promise_block(random: &mut Random, draft: &Draft) -> Option<Vec<u8>> {
    added(random, draft, promised, &[Type::OWNED, Type::OWNED], |r| {
        let (d, a, items) = (r[1], r[0], vec![]);
        vec![Instruction::Vec { d: a, items }, Instruction::Use { d, a }]
    })
}

fn set_in_a_promise_block(random: &mut Random, draft: &Draft) -> Option<Vec<u8>> {
    added(random, draft, promised, &[Type::OWNED, Type::INTEGER], set)
}

/// A DISPATCH on function 0 with these argument types.
fn dispatch(d: Register, arguments: Vec<(Type, Register)>) -> Instruction {
    Instruction::Dispatch {
        d,
        function: 0,
        mark: Mark::QUIET,
        returns: Type::INTEGER,
        arguments,
    }
}

fn emptying_call_in_a_promise_block(random: &mut Random, draft: &Draft) -> Option<Vec<u8>> {
    let types = [Type::OWNED, Type::INTEGER];
    added(random, draft, promised, &types, |r| {
        let (d, items) = (r[0], vec![]);
        let given = vec![(Type::OWNED, r[0])];
        vec![Instruction::Vec { d, items }, dispatch(r[1], given)]
    })
}

fn owned_register_twice(random: &mut Random, draft: &Draft) -> Option<Vec<u8>> {
    let other = random.pick(&[Type::OWNED, Type::BORROWED]);
    let first = random.one_in(2);
    added(random, draft, body, &[Type::OWNED, Type::INTEGER], |r| {
        let (d, items) = (r[0], vec![]);
        let mut given = vec![(Type::OWNED, r[0]), (other, r[0])];
        if first {
            given.reverse();
        }
        vec![Instruction::Vec { d, items }, dispatch(r[1], given)]
    })
}

fn borrowed_register_assigned(random: &mut Random, draft: &Draft) -> Option<Vec<u8>> {
    let mut draft = draft.clone();
    let borrows = |v: &DraftVersion| v.types.contains(&Type::BORROWED);
    let versions = (0..draft.versions.len()).filter(|&v| borrows(&draft.versions[v]));
    let versions: Vec<usize> = versions.collect();
    let version = &mut draft.versions[random.choose(&versions)?];
    let d = version.types.iter().position(|&ty| ty == Type::BORROWED)?;
    let (d, items) = (d as Register, vec![]);
    append(&mut version.blocks[0], vec![Instruction::Vec { d, items }])?;
    Some(draft.bytes())
}
