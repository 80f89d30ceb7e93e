//! Generated programs in one image, as the bottom of a workload's tree.

use super::Workload;
use cases::image;
use reference::bounds::{BUFFER, FUNCTIONS, MAX_IMAGE, VERSIONS};
use reference::program::Version;
use reference::questions::records;
use reference::{End, Instruction, Kind, Program, Record, State, Status, Type};
use std::fmt::Write;

/// How many generated programs are mixed.
const MIXED: usize = 4;

/// Generated programs, each with a function that enters it, and one that calls
/// those functions in turn.
pub fn mix() -> Vec<u8> {
    let mut mix = Mix::default();
    for seed in 0.. {
        if mix.entered.len() == MIXED {
            break;
        }
        mix.try_program(&generator::accepted_of(generator::Theme::Medium, seed));
    }
    let calls: String = mix.entered.iter().fold(String::new(), |mut calls, f| {
        writeln!(calls, "r0 = call {f}.0(r0)").expect("a string takes all");
        calls
    });
    let last = mix.functions;
    let text = format!(
        "version {last}.0(r0: int) -> int
           level factory
           block 0 reflective -> r0
           {calls}"
    );
    mix.image.extend(image(&text));
    mix.image
}

/// Generated programs behind one another in an image.
#[derive(Default)]
struct Mix {
    image: Vec<u8>,
    functions: usize,
    /// The functions that enter a program.
    entered: Vec<usize>,
}

impl Mix {
    /// Adds a program if it is DONE after some hundred steps and leaves room.
    fn try_program(&mut self, image: &[u8]) {
        let program = Program::accept(image).expect("an accepted image");
        let functions = 1 + usize::from(program.versions.last().map_or(0, |v| v.head.function));
        let versions = program.versions.len();
        let Some(entering) = entering(&program, functions) else {
            return;
        };
        let alone = [image, &entering].concat();
        let Some(steps) = steps_to_done(&alone, functions) else {
            return;
        };
        let fits = functions < (FUNCTIONS - 6) / MIXED && versions < (VERSIONS - 6) / MIXED;
        if fits && (200..2000).contains(&steps) && alone.len() < MAX_IMAGE / (MIXED + 1) {
            self.image.extend(shifted(&alone, self.functions as u8));
            self.functions += functions + 1;
            self.entered.push(self.functions - 1);
        }
    }
}

/// The image with all numbers of functions greater by so many.
fn shifted(image: &[u8], by: u8) -> Vec<u8> {
    let records = records(image).expect("an accepted image");
    let shift = |mut record: Record| {
        match &mut record {
            Record::Version(version) => version.function += by,
            Record::Instruction(Instruction::Call { function, .. })
            | Record::Instruction(Instruction::Dispatch { function, .. }) => *function += by,
            _ => {}
        }
        record.bytes()
    };
    records
        .into_iter()
        .flat_map(|placed| shift(placed.item))
        .collect()
}

/// A function of this number that calls the first version of the program's last
/// function and gives its argument back; none if that version takes promises.
fn entering(program: &Program, function: usize) -> Option<Vec<u8>> {
    let last = function - 1;
    let called = program.version(last, 0)?;
    let (mut registers, mut body, mut given) = (vec!["r1: int".to_string()], String::new(), vec![]);
    for (register, &parameter) in (2..).zip(called.parameters()) {
        registers.push(format!("r{register}: {}", argument_type(parameter)?));
        body += &match parameter.kind() {
            Kind::VECTOR => format!("r{register} = vec [r0, r1, r1, r0]\n"),
            _ => format!("r{register} = lit 3\n"),
        };
        given.push(format!("r{register}"));
    }
    let d = 2 + given.len();
    registers.push(format!("r{d}: {}", result_type(called)));
    Some(image(&format!(
        "version {function}.0(r0: int) -> int
           registers {}
           level factory
           block 0 reflective -> r0
             r1 = lit 2
             {body}
             r{d} = call {last}.0({})",
        registers.join(", "),
        given.join(", ")
    )))
}

/// The type of a register that is given to a parameter.
fn argument_type(parameter: Type) -> Option<&'static str> {
    match parameter.kind() {
        Kind::QUIET | Kind::REFLECTIVE => None,
        Kind::VECTOR if parameter.is_shared() => Some("vector"),
        Kind::VECTOR => Some("own vector"),
        Kind::ANY => Some("any"),
        Kind::VALUE => Some("value"),
        _ => Some("int"),
    }
}

/// The type of a register that takes the result of a version.
fn result_type(version: &Version) -> &'static str {
    match version.head.returns.kind() {
        Kind::INTEGER => "int",
        Kind::VECTOR => "vector",
        _ => "value",
    }
}

/// The steps that a run of a function's version 0 takes to DONE; none if it
/// ends otherwise or takes many.
fn steps_to_done(image: &[u8], function: usize) -> Option<u32> {
    let program = Program::accept(image).expect("an accepted image");
    let mut buffer = [0; BUFFER];
    let begun = State::begin(
        &program,
        Workload::LEVEL,
        function,
        0,
        &Workload::WORDS,
        &buffer,
    )
    .ok()?;
    let (after, _, steps) = begun.budget(&program, 5000, &mut buffer);
    match after.status {
        Status::Ended(End::Integer(_)) => Some(steps),
        _ => None,
    }
}
