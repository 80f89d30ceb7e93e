//! Images that may be mended by one register type byte: accepted ones with one or two
//! wrong types, quiet blocks that force reflective promises, vectors that are given away
//! and used again, and images that a question refuses otherwise. They are small, so that
//! every change of every byte can be tried.

use crate::damage;
use crate::draft::{Draft, DraftBlock, DraftVersion};
use crate::random::Random;
use crate::theme::{self, Theme};
use reference::{Instruction, Kind, Level, Mark, Register, Type};

/// The most registers of all versions together.
const FEW: usize = 6;

/// What is wrong with an image.
#[derive(Clone, Copy, PartialEq, Eq, PartialOrd, Ord, Debug)]
pub enum Fault {
    /// Nothing.
    None,
    /// One register type byte is another.
    OneType,
    /// Two register type bytes are others.
    TwoTypes,
    /// A quiet block does something reflective.
    Effect,
    /// A register is used after it was emptied, or emptied after it was captured.
    Flow,
    /// What a question refuses.
    Question(u8),
}

/// An image that is to be mended.
#[derive(Clone, PartialEq, Eq, Debug)]
pub struct Mend {
    /// The image.
    pub image: Vec<u8>,
    /// What is wrong with it.
    pub fault: Fault,
}

/// An image, with what is wrong with it.
pub fn any(random: &mut Random) -> Mend {
    let fault = match random.below(100) {
        0..=1 => Fault::None,
        2..=26 => Fault::OneType,
        27..=41 => Fault::TwoTypes,
        42..=56 => Fault::Effect,
        57..=74 => Fault::Flow,
        75..=79 => Fault::Question(random.pick(&[7, 14, 18])),
        80..=82 => Fault::Question(random.pick(&[1, 2, 3, 4, 5])),
        _ => Fault::Question(random.pick(&[6, 8, 9, 10])),
    };
    let image = match fault {
        Fault::None => program(random).bytes(),
        Fault::OneType => retyped(random, 1),
        Fault::TwoTypes => retyped(random, 2),
        Fault::Effect => effect(random),
        Fault::Flow => flow(random),
        Fault::Question(question) => damaged(random, question),
    };
    Mend { image, fault }
}

/// An accepted program of few registers.
fn program(random: &mut Random) -> Draft {
    loop {
        let draft = theme::program(random, Theme::Tiny);
        if draft.versions.iter().map(|v| v.types.len()).sum::<usize>() <= FEW {
            return draft;
        }
    }
}

/// An image that a question should refuse.
fn damaged(random: &mut Random, question: u8) -> Vec<u8> {
    loop {
        let draft = program(random);
        if let Some(bytes) = damage::damage(random, question, &draft) {
            return bytes;
        }
    }
}

/// A program with so many of its register types changed, each another register's.
fn retyped(random: &mut Random, times: usize) -> Vec<u8> {
    loop {
        let mut draft = program(random);
        let versions = draft.versions.iter().enumerate();
        let places =
            versions.flat_map(|(v, version)| (0..version.types.len()).map(move |r| (v, r)));
        let places = random.shuffled(places.collect());
        if places.len() < times {
            continue;
        }
        for &(version, register) in &places[..times] {
            let ty = &mut draft.versions[version].types[register];
            *ty = other(random, *ty);
        }
        return draft.bytes();
    }
}

/// Another type byte, mostly one that a type has.
fn other(random: &mut Random, ty: Type) -> Type {
    loop {
        let other = match random.below(4) {
            0 => Type(random.byte()),
            1 => random.pick(&[Type::OWNED, Type::BORROWED]),
            _ => Type::shared(random.pick(&Kind::ALL)),
        };
        if other != ty {
            return other;
        }
    }
}

/// A version of the portal with these types and blocks, which gives an integer.
fn version(
    numbers: (u8, u8),
    parameters: usize,
    types: &[Type],
    blocks: Vec<DraftBlock>,
) -> DraftVersion {
    DraftVersion {
        function: numbers.0,
        version: numbers.1,
        parameters,
        returns: Type::INTEGER,
        types: types.to_vec(),
        level: Level::PORTAL,
        blocks,
    }
}

/// A quiet block.
fn quiet(result: Register, instructions: Vec<Instruction>) -> DraftBlock {
    DraftBlock {
        mark: Mark::QUIET,
        result,
        instructions,
    }
}

/// A promise type, mostly the reflective one.
fn promise(random: &mut Random) -> Type {
    Type::shared(random.weighted(&[(3, Kind::REFLECTIVE), (1, Kind::QUIET)]))
}

/// A quiet body that forces promises which it is given or makes, and may look at a name:
/// one reflective register is mended, two are not, nor is a name or a reflective block.
fn effect(random: &mut Random) -> Vec<u8> {
    let parameters = 1 + random.below(2);
    let mut types: Vec<Type> = (0..parameters).map(|_| promise(random)).collect();
    types.extend([Type::INTEGER, Type::VALUE]);
    let (d, value) = (parameters as Register, parameters as Register + 1);
    let forced = (0..parameters as Register).filter(|_| random.percent(85));
    let mut instructions: Vec<Instruction> = forced.map(|a| Instruction::Force { d, a }).collect();
    instructions.push(Instruction::Lit { d, value: 3 });
    if random.one_in(6) {
        let (d, a, x) = (value, 0, 2);
        instructions.push(Instruction::Peek { d, a, x });
    }
    let mut blocks = vec![quiet(d, instructions)];
    if random.one_in(2) {
        types.push(promise(random));
        let a = types.len() as Register - 1;
        let making = [
            Instruction::Prom { d: a, block: 1 },
            Instruction::Force { d, a },
        ];
        blocks[0].instructions.extend(making);
        blocks.push(promised(random, d));
    }
    let version = version((0, 0), parameters, &types, blocks);
    let versions = vec![version];
    Draft { versions }.bytes()
}

/// A promise block that gives a literal, and may be marked reflective.
fn promised(random: &mut Random, d: Register) -> DraftBlock {
    let mut block = quiet(d, vec![Instruction::Lit { d, value: 5 }]);
    if random.one_in(4) {
        block.mark = Mark::REFLECTIVE;
    }
    block
}

/// A vector that is given to a version which owns it, and used again. The parameter, changed
/// to a borrowed one, mends that where the version only looks at it, and where nothing else
/// is wrong: the vector is not emptied otherwise, and no other version fails.
fn flow(random: &mut Random) -> Vec<u8> {
    let callers = 1 + random.below(2) as u8;
    let numbers = match callers == 1 || random.one_in(2) {
        true => (1, 0),
        false => (0, callers),
    };
    let mut versions: Vec<DraftVersion> = Vec::new();
    for number in 0..callers {
        versions.push(caller(random, (0, number), numbers));
    }
    let consumes = random.one_in(5);
    let looked = match random.below(3) {
        _ if consumes => vec![
            Instruction::Use { d: 0, a: 0 },
            Instruction::Len { d: 1, a: 0 },
        ],
        0 => vec![Instruction::Len { d: 1, a: 0 }],
        1 => vec![
            Instruction::Lit { d: 1, value: 0 },
            Instruction::Get { d: 1, a: 0, i: 1 },
        ],
        _ => vec![Instruction::Lit { d: 1, value: 7 }],
    };
    let types = [Type::OWNED, Type::INTEGER];
    versions.push(version(numbers, 1, &types, vec![quiet(1, looked)]));
    if random.one_in(6) {
        let version = random.below(versions.len());
        versions[version].types[1] = random.pick(&[Type::VECTOR, Type::VALUE]);
    }
    Draft { versions }.bytes()
}

/// A version that gives its vector to another one, and may use it before and after.
fn caller(random: &mut Random, own: (u8, u8), called: (u8, u8)) -> DraftVersion {
    let call = Instruction::Call {
        d: 1,
        function: called.0,
        version: called.1,
        arguments: vec![0],
    };
    let types = [Type::OWNED, Type::INTEGER, Type::shared(Kind::QUIET)];
    let length = Instruction::Len { d: 1, a: 0 };
    let (uses, captures) = (random.percent(80), random.one_in(4));
    let mut instructions = Vec::new();
    let mut promised = Vec::new();
    if captures {
        instructions.push(Instruction::Prom { d: 2, block: 1 });
        promised.push(quiet(1, vec![length.clone()]));
    }
    instructions.push(call.clone());
    if uses {
        instructions.push(if random.one_in(3) {
            call
        } else {
            length.clone()
        });
    }
    if random.one_in(8) {
        instructions.extend([Instruction::Use { d: 0, a: 0 }, length]);
    }
    let mut blocks = vec![quiet(1, instructions)];
    blocks.extend(promised);
    let types = &types[..if captures { 3 } else { 2 }];
    version(own, 1, types, blocks)
}
