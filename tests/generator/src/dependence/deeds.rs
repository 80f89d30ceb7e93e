//! Versions by what they do, and the records that do it.

use crate::draft::{Draft, DraftBlock, DraftVersion};
use crate::random::Random;
use reference::bounds::{BLOCKS, INSTRUCTIONS};
use reference::program::Signature;
use reference::{kinds, Instruction, Level, Register, Type};

/// The most instructions that a deed takes, and those that a body has besides its deeds.
const DEED: usize = 3;
const BESIDES: usize = 4 + BLOCKS + 1;

/// The most deeds of a block.
const MOST_DEEDS: usize = (INSTRUCTIONS - BESIDES) / DEED;

/// What a block does.
pub enum Deed {
    /// A plain instruction.
    Plain,
    /// A CALL of a version, by its place.
    Call(usize),
    /// A DISPATCH on a function.
    Dispatch {
        /// The function.
        function: u8,
        /// The signature.
        signature: Signature,
    },
    /// The same, in a part that is skipped or not.
    Skipped(Box<Deed>),
}

/// A version.
pub struct Node {
    /// The function's number.
    pub function: u8,
    /// The version's number.
    pub version: u8,
    /// Its signature.
    pub signature: Signature,
    /// Its level.
    pub level: Level,
    /// What its blocks do, by number.
    pub blocks: Vec<Vec<Deed>>,
}

/// Versions in image order.
pub struct Web {
    /// The versions.
    pub nodes: Vec<Node>,
}

/// The registers of a version behind its parameters: an integer, a value, a shared and an
/// owned vector, and from there on promises.
struct Registers {
    integer: Register,
    value: Register,
    shared: Register,
    owned: Register,
    promises: Register,
}

impl Registers {
    /// Those behind so many parameters.
    fn behind(parameters: usize) -> Registers {
        let first = parameters as Register;
        Registers {
            integer: first,
            value: first + 1,
            shared: first + 2,
            owned: first + 3,
            promises: first + 4,
        }
    }

    /// The one that is given to a parameter.
    fn given(&self, parameter: Type) -> Register {
        match parameter {
            Type::OWNED => self.owned,
            Type::VECTOR | Type::BORROWED => self.shared,
            Type::VALUE => self.value,
            _ => self.integer,
        }
    }

    /// The one that takes a result, in a promise block no owned one.
    fn taking(&self, returns: Type, number: usize) -> Register {
        match returns {
            Type::INTEGER => self.integer,
            Type::VALUE => self.value,
            Type::OWNED if number == 0 => self.owned,
            _ => self.shared,
        }
    }
}

impl Deed {
    /// Does it give an owned register away, which no promise block may?
    fn empties(&self, web: &Web) -> bool {
        let parameters = match self {
            Deed::Plain => return false,
            Deed::Call(to) => &web.nodes[*to].signature.parameters,
            Deed::Dispatch { signature, .. } => &signature.parameters,
            Deed::Skipped(deed) => return deed.empties(web),
        };
        parameters.iter().any(|parameter| parameter.is_owned())
    }
}

impl Web {
    /// Adds a deed to a block of a version that has room, if one has.
    pub fn add(&mut self, random: &mut Random, from: usize, deed: Deed) {
        let promised = random.one_in(4) && !deed.empties(self);
        let skipped = random.one_in(6);
        let deed = match skipped {
            true => Deed::Skipped(Box::new(deed)),
            false => deed,
        };
        let blocks = &mut self.nodes[from].blocks;
        let block = match promised {
            false => 0,
            true => {
                if blocks.len() < BLOCKS && random.one_in(2) {
                    blocks.push(Vec::new());
                }
                blocks.len() - 1
            }
        };
        if blocks[block].len() < MOST_DEEDS {
            blocks[block].push(deed);
        }
    }

    /// The image, with some plain instructions among the deeds.
    pub fn draft(mut self, random: &mut Random) -> Draft {
        for node in 0..self.nodes.len() {
            for _ in 0..random.below(4) {
                self.add(random, node, Deed::Plain);
            }
        }
        let forced = random.one_in(2);
        let version = |node| self.version(node, forced);
        Draft {
            versions: self.nodes.iter().map(version).collect(),
        }
    }

    /// A version, its promises forced or not.
    fn version(&self, node: &Node, forced: bool) -> DraftVersion {
        let Signature {
            parameters,
            returns,
            mark,
        } = &node.signature;
        let registers = Registers::behind(parameters.len());
        let mut types = parameters.clone();
        types.extend([Type::INTEGER, Type::VALUE, Type::VECTOR, Type::OWNED]);
        types.extend(vec![Type::shared(mark.promise()); node.blocks.len() - 1]);
        let block = |(number, deeds): (usize, &Vec<Deed>)| DraftBlock {
            mark: *mark,
            result: match number {
                0 => registers.taking(*returns, 0),
                _ => registers.integer,
            },
            instructions: match number {
                0 => self.body(&registers, node, forced),
                _ => self.done(&registers, number, deeds),
            },
        };
        DraftVersion {
            function: node.function,
            version: node.version,
            parameters: parameters.len(),
            returns: *returns,
            types,
            level: node.level,
            blocks: node.blocks.iter().enumerate().map(block).collect(),
        }
    }

    /// The instructions of a body: each register is assigned, then promises are made, and
    /// forced if they are to be, and the deeds are done.
    fn body(&self, registers: &Registers, node: &Node, forced: bool) -> Vec<Instruction> {
        let mut body = vec![
            literal(registers.integer),
            literal(registers.value),
            vector(registers.shared),
            vector(registers.owned),
        ];
        for block in 1..node.blocks.len() as u8 {
            let d = registers.promises + block - 1;
            body.push(Instruction::Prom { d, block });
        }
        body.extend(self.done(registers, 0, &node.blocks[0]));
        if forced && node.blocks.len() > 1 {
            body.push(Instruction::Force {
                d: registers.integer,
                a: registers.promises,
            });
        }
        body.push(vector(registers.owned));
        body
    }

    /// The instructions of deeds in a block of this number.
    fn done(&self, registers: &Registers, number: usize, deeds: &[Deed]) -> Vec<Instruction> {
        let deeds = deeds.iter();
        deeds
            .flat_map(|deed| self.instructions(registers, number, deed))
            .collect()
    }

    /// The instructions of a deed.
    fn instructions(&self, at: &Registers, number: usize, deed: &Deed) -> Vec<Instruction> {
        if let Deed::Skipped(deed) = deed {
            let part = self.instructions(at, number, deed);
            let n = part.len() as u8;
            let skip = Instruction::Skip { a: at.integer, n };
            return [vec![skip], part].concat();
        }
        let filled = deed.empties(self).then(|| vector(at.owned));
        let done = self.instruction(at, number, deed);
        filled.into_iter().chain([done]).collect()
    }

    /// The instruction of a deed that stands in no skipped part.
    fn instruction(&self, at: &Registers, number: usize, deed: &Deed) -> Instruction {
        match deed {
            Deed::Call(to) => {
                let called = &self.nodes[*to];
                let parameters = called.signature.parameters.iter();
                Instruction::Call {
                    d: at.taking(called.signature.returns, number),
                    function: called.function,
                    version: called.version,
                    arguments: parameters.map(|&ty| at.given(ty)).collect(),
                }
            }
            Deed::Dispatch {
                function,
                signature,
            } => {
                let parameters = signature.parameters.iter();
                Instruction::Dispatch {
                    d: at.taking(signature.returns, number),
                    function: *function,
                    mark: signature.mark,
                    returns: signature.returns,
                    arguments: parameters.map(|&ty| (ty, at.given(ty))).collect(),
                }
            }
            Deed::Plain | Deed::Skipped(_) => Instruction::Arith {
                d: at.integer,
                op: kinds::LESS,
                a: at.integer,
                b: at.integer,
            },
        }
    }
}

/// An integer for a register.
fn literal(d: Register) -> Instruction {
    Instruction::Lit { d, value: 1 }
}

/// An empty vector for a register.
fn vector(d: Register) -> Instruction {
    Instruction::Vec { d, items: vec![] }
}
