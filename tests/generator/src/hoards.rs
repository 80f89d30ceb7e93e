//! Scripts that hold vectors and let them go: functions that call the next one, each with
//! vectors in registers and names.

use crate::draft::{Draft, DraftBlock, DraftVersion};
use crate::random::Random;
use reference::bounds::{LISTED, NAMES, PARAMETERS, REGISTERS};
use reference::pool::Start;
use reference::{Instruction, Integer, Kind, Level, Mark, Name, Register, Type};

/// The most functions of a script.
const FUNCTIONS: usize = 5;
/// The most instructions of a body before its end.
const LONGEST: usize = 30;

/// A function while it grows: which registers hold vectors by their type, and which were
/// assigned.
struct Function {
    version: DraftVersion,
    assigned: Vec<Register>,
    /// The register of integers.
    integer: Register,
}

/// A script with vector arguments, and the words that it begins with.
pub fn hoard(random: &mut Random) -> Start {
    let functions = 1 + random.below(FUNCTIONS);
    let level = random.weighted(&[(70, Level(0)), (20, Level(1)), (10, Level(2))]);
    let arguments = random.pick(&[0, 0, 1, 1, 2, 3, 5, PARAMETERS]);
    let returns = random.pick(&[Type::INTEGER, Type::INTEGER, Type::VECTOR]);
    let mut versions = Vec::new();
    for number in 0..functions {
        let parameters = if number == 0 { arguments } else { 1 };
        let mut function = Function::new(random, number as u8, parameters, level);
        function.grow(random, number + 1 < functions);
        if number == 0 && returns == Type::VECTOR {
            function.give_vector(random);
        }
        versions.push(function.version);
    }
    let mut words = Vec::new();
    for _ in 0..arguments {
        let length = random.below(4);
        words.push(length as Integer);
        words.extend((0..length).map(|_| random.between(-9, 9)));
    }
    Start {
        image: Draft { versions }.bytes(),
        level: usize::from(level.0) + random.below(3),
        entry: (0, 0),
        words,
    }
}

impl Function {
    /// A function of so many vectors, with registers for more.
    fn new(random: &mut Random, number: u8, parameters: usize, level: Level) -> Function {
        let mut types = vec![Type::VECTOR; parameters];
        types.extend([Type::INTEGER, Type::VECTOR]);
        for _ in 0..random.below(REGISTERS - parameters - 1) {
            types.push(random.pick(&[Type::VECTOR, Type::VECTOR, Type::VALUE]));
        }
        let integer = parameters as Register;
        let body = DraftBlock {
            mark: Mark::QUIET,
            result: integer,
            instructions: vec![Instruction::Lit {
                d: integer,
                value: random.between(-3, 20),
            }],
        };
        let version = DraftVersion {
            function: number,
            version: 0,
            parameters,
            returns: Type::INTEGER,
            types,
            level,
            blocks: vec![body],
        };
        Function {
            version,
            assigned: (0..integer).collect(),
            integer,
        }
    }

    /// Adds an instruction that assigns a register, if any.
    fn push(&mut self, instruction: Instruction, assigns: Option<Register>) {
        self.version.blocks[0].instructions.push(instruction);
        if let Some(d) = assigns.filter(|d| !self.assigned.contains(d)) {
            self.assigned.push(d);
        }
    }

    /// The registers of a type.
    fn of_type(&self, ty: Type) -> Vec<Register> {
        let types = self.version.types.iter().enumerate();
        let own = types.filter(|&(_, found)| *found == ty);
        own.map(|(register, _)| register as Register).collect()
    }

    /// A register that surely holds a vector.
    fn holding(&self, random: &mut Random) -> Option<Register> {
        let vector = |r: &Register| self.version.types[usize::from(*r)].kind() == Kind::VECTOR;
        let holding = self.assigned.iter().copied().filter(vector);
        random.choose(&holding.collect::<Vec<Register>>())
    }

    /// A register for a vector: any but that of integers.
    fn target(&self, random: &mut Random) -> Register {
        let first = usize::from(self.integer) + 1;
        (first + random.below(self.version.types.len() - first)) as Register
    }

    /// Holds vectors and lets them go, and calls the next function in between.
    fn grow(&mut self, random: &mut Random, calls: bool) {
        let length = 3 + random.below(LONGEST - 3);
        let call = random.below(length);
        for place in 0..length {
            if calls && place == call {
                self.call_next(random);
            }
            self.one_more(random);
        }
    }

    /// One more instruction.
    fn one_more(&mut self, random: &mut Random) {
        let (d, held) = (self.target(random), self.holding(random));
        match (random.below(10), held) {
            (0..=1, Some(a)) => self.push(Instruction::Dup { d, a }, Some(d)),
            (2, Some(a)) => self.push(Instruction::Move { d, a }, Some(d)),
            (3..=4, Some(a)) => {
                let x = random.below(NAMES) as Name;
                self.push(Instruction::Store { x, a }, None);
            }
            (5, _) => {
                let free = random.choose(&self.of_type(Type::VALUE));
                let d = free.unwrap_or(self.integer);
                let value = random.between(0, 9);
                self.push(Instruction::Lit { d, value }, Some(d));
            }
            _ => {
                let items = vec![self.integer; random.below(LISTED + 1)];
                self.push(Instruction::Vec { d, items }, Some(d));
            }
        }
    }

    /// Calls the next function with a vector.
    fn call_next(&mut self, random: &mut Random) {
        let argument = self.surely_holding(random);
        let call = Instruction::Call {
            d: self.integer,
            function: self.version.function + 1,
            version: 0,
            arguments: vec![argument],
        };
        self.push(call, None);
    }

    /// Lets the function give a vector.
    fn give_vector(&mut self, random: &mut Random) {
        let result = self.surely_holding(random);
        self.version.returns = Type::VECTOR;
        self.version.blocks[0].result = result;
    }

    /// A register that holds a vector, made where none does.
    fn surely_holding(&mut self, random: &mut Random) -> Register {
        if let Some(held) = self.holding(random) {
            return held;
        }
        let d = self.integer + 1;
        let items = vec![self.integer; random.below(LISTED + 1)];
        self.push(Instruction::Vec { d, items }, Some(d));
        d
    }
}
