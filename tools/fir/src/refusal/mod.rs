//! Why an image, a run, a change of image, a step back, a pool, a move or a joining is
//! refused, in words.
//!
//! The question and the offset are the proved library's. The words come from
//! looking at the record there for what the question asks; where that finds
//! nothing, they are the question's own.

mod arguments;
mod change;
mod effect;
mod existence;
mod fit;
mod flow;
mod framing;
mod joins;
mod levels;
mod moves;
mod order;
mod skips;
mod types;
pub mod vocabulary;

pub use vocabulary::noun;

use crate::command::Call;
use crate::json::Json;
use crate::number::many;
use crate::place::{beginning, version_name, Position};
use crate::source::Source;
use library::{Entry, Refusal, State, FIR_PLACES, FIR_REFUSED_ENTRY, FIR_RUNS};
use reference::program::{Block, Program, Version};
use reference::record::Placed;
use reference::{Form, Instruction, Register};
use text::Names;

/// A refusal in words.
#[derive(Clone, PartialEq, Eq, Debug)]
pub struct Refused {
    /// The question and the offset.
    pub no: Refusal,
    /// Where to look in the text, if there is one.
    pub position: Option<Position>,
    /// Why.
    pub words: String,
}

impl Refused {
    /// The refusal with the words that were found, or with the question's own.
    fn new(source: &Source, no: Refusal, found: Option<Diagnosis>) -> Refused {
        let found = found.unwrap_or_else(|| rule(no.question).to_string().into());
        let of_record = matches!(no.question, 2..=10 | 14..=16 | 18);
        let record = || source.position(no.offset).filter(|_| of_record);
        Refused {
            no,
            position: found.position.or_else(record),
            words: found.words,
        }
    }

    /// The question, the offset and the words: `refused by 8 at 37: ..`.
    pub fn plain(&self) -> String {
        let Refusal { question, offset } = self.no;
        format!("refused by {question} at {offset}: {}", self.words)
    }

    /// The line of a refusal; it begins with the place in the text, if there is one.
    pub fn line(&self, source: &Source) -> String {
        beginning(&source.name, self.position, "") + &self.plain()
    }

    /// The question, the offset, the place and the words, to stand in an object.
    pub fn json(&self) -> Vec<(&'static str, Json)> {
        let mut fields = vec![
            ("question", self.no.question.into()),
            ("offset", self.no.offset.into()),
        ];
        fields.extend(Json::position(self.position));
        fields.push(("words", self.words.as_str().into()));
        fields
    }

    /// The same among those of other files: it begins with the file's name.
    pub fn line_of_several(&self, source: &Source) -> String {
        self.line_after(source, "")
    }

    /// The same of a refusal after something, which is named behind the offset.
    pub fn line_after(&self, source: &Source, after: &str) -> String {
        let Refusal { question, offset } = self.no;
        let name = format!("{}: ", source.name);
        let begin = beginning(&source.name, self.position, &name);
        format!(
            "{begin}refused by {question} at {offset}{after}: {}",
            self.words
        )
    }
}

/// Words for a refusal, and where to look if that is not the record of the refusal.
struct Diagnosis {
    words: String,
    position: Option<Position>,
}

impl From<String> for Diagnosis {
    fn from(words: String) -> Diagnosis {
        let position = None;
        Diagnosis { words, position }
    }
}

/// Why an image of a form is refused.
pub fn of_image(form: Form, source: &Source, no: Refusal) -> Refused {
    Refused::new(source, no, diagnosis(form, source, no))
}

/// Why a move from a form is refused.
pub fn of_move(form: Form, source: &Source, no: Refusal) -> Refused {
    let image = &source.image[..];
    let words = match no.question {
        3 => moves::already(form, image, no.offset),
        16 => moves::literal(image, no.offset),
        17 => moves::room(form, image),
        _ => None,
    };
    let found = words.map(Diagnosis::from);
    Refused::new(source, no, found.or_else(|| diagnosis(form, source, no)))
}

/// Why two accepted images are not joined.
pub fn of_join(first: &[u8], second: &[u8], no: Refusal) -> Refused {
    let words = joins::bounds(first, second);
    Refused {
        no,
        position: None,
        words: words.unwrap_or_else(|| rule(no.question).to_string()),
    }
}

/// Why a version is no entry of an image, where it does not exist.
pub fn of_entry(source: &Source, entry: Entry) -> Refused {
    let (question, offset) = (FIR_REFUSED_ENTRY, 0);
    let words = arguments::entry(&source.image, entry).map(Diagnosis::from);
    Refused::new(source, Refusal { question, offset }, words)
}

/// Why a run is refused.
pub fn of_run(source: &Source, no: Refusal, call: &Call) -> Refused {
    let (image, entry) = (&source.image, call.entry);
    let words = match no.question {
        11 => arguments::entry(image, entry).map(Diagnosis::from),
        19 => levels::entry(image, entry, call.level).map(Diagnosis::from),
        12 => arguments::arguments(source, entry, &call.arguments).map(Diagnosis::from),
        _ => diagnosis(Form::Wide, source, no),
    };
    Refused::new(source, no, words)
}

/// Why a change of image is refused, in the state of the run.
pub fn of_change(old: &Source, new: &Source, no: Refusal, state: &State) -> Refused {
    let words = match no.question {
        15 => change::change(old, new, no.offset, state).map(Diagnosis::from),
        _ => diagnosis(Form::Wide, new, no),
    };
    Refused::new(new, no, words)
}

/// Why a run goes back no further: it stands at its start, or its image was changed after
/// so many steps.
pub fn of_back(no: Refusal, changed: u32) -> Refused {
    let words = match changed {
        0 => "the run stands at its start, and no step lies behind it".to_string(),
        steps => {
            let steps = many(steps as usize, "step");
            format!("the run goes back no further than the change of its image after {steps}")
        }
    };
    Refused {
        no,
        position: None,
        words,
    }
}

/// Why a pool with these reserves is not made.
pub fn of_pool(no: Refusal, reserves: [u8; FIR_RUNS]) -> Refused {
    let sum: usize = reserves.into_iter().map(usize::from).sum();
    let words = format!("the reserves sum to {sum}, and there are {FIR_PLACES} vectors in all");
    Refused {
        no,
        position: None,
        words,
    }
}

/// Why a number is none of a run in a pool.
pub fn of_number(no: Refusal, number: usize) -> Refused {
    let last = FIR_RUNS - 1;
    Refused {
        no,
        position: None,
        words: format!("{number} is no number of a run: they are 0 to {last}"),
    }
}

/// What the record at the refusal's offset does wrong, if it is found.
fn diagnosis(form: Form, source: &Source, no: Refusal) -> Option<Diagnosis> {
    let (image, offset) = (&source.image[..], no.offset);
    let words = match no.question {
        1 => framing::size(image),
        2 => framing::record(image, offset),
        3 => framing::fields(form, image, offset),
        4 => order::bounds(form, image, offset),
        5 => order::numbering(form, image, offset),
        6..=10 | 14 | 18 => {
            let program = Program::ordered_in(form, image).ok()?;
            let found = Found::at(&program, &source.names, offset)?;
            match no.question {
                6 => return types::type_bytes(source, &found),
                7 => existence::existence(source, &found),
                14 => skips::skips(source, &found, offset),
                8 => fit::fit(&found),
                18 => levels::call(&found),
                9 => effect::effect(source, &found),
                _ => return flow::flow(source, &found),
            }
        }
        _ => None,
    };
    words.map(Diagnosis::from)
}

/// A record of a program, with what it stands in.
struct Found<'p> {
    program: &'p Program,
    /// What the text calls registers.
    names: &'p Names,
    version: &'p Version,
    record: FoundRecord<'p>,
}

/// What the record is.
enum FoundRecord<'p> {
    /// The VERSION itself.
    Version,
    /// A BLOCK, with its number.
    Block(usize, &'p Block),
    /// An instruction, with the number of its block.
    Instruction(usize, &'p Instruction),
}

impl<'p> Found<'p> {
    /// The record at an offset.
    fn at(program: &'p Program, names: &'p Names, offset: usize) -> Option<Found<'p>> {
        let mut versions = program.versions.iter().rev();
        let version = versions.find(|version| version.offset <= offset)?;
        let record = if version.offset == offset {
            FoundRecord::Version
        } else {
            let mut blocks = version.blocks.iter().enumerate().rev();
            let (number, block) = blocks.find(|(_, block)| block.offset <= offset)?;
            if block.offset == offset {
                FoundRecord::Block(number, block)
            } else {
                let is_there = |placed: &&Placed<Instruction>| placed.offset == offset;
                let placed = block.instructions.iter().find(is_there)?;
                FoundRecord::Instruction(number, &placed.item)
            }
        };
        Some(Found {
            program,
            names,
            version,
            record,
        })
    }

    /// The version's numbers: `0.0`.
    fn version_name(&self) -> String {
        version_name(self.version)
    }

    /// What the text calls a register of the version.
    fn called(&self, register: Register) -> String {
        let head = &self.version.head;
        let registers = self.names.of(head.function, head.version);
        registers.text(register)
    }

    /// What the text calls a parameter of the version that a CALL names.
    fn called_parameter(&self, instruction: &Instruction, place: usize) -> String {
        let register = Register::try_from(place).unwrap_or(Register::MAX);
        match *instruction {
            Instruction::Call {
                function, version, ..
            } => self.names.of(function, version).text(register),
            _ => format!("r{register}"),
        }
    }
}

/// What a question asks, in general words.
pub fn rule(question: u8) -> &'static str {
    match question {
        1 => "an image has 1 to 32,768 bytes",
        2 => "a record has a full head and a length of at least 4, and ends inside the image",
        3 => "a record's kind is known, and its length is the one that its fields make",
        4 => "numbers, counts, marks, levels, op and n are in bounds, and records in order",
        5 => "the first version is 0.0, and each next one follows on it",
        6 => "a type byte is allowed at its place",
        7 => "what is named exists, and every block but 0 is named by exactly one PROM",
        14 => "no SKIP goes past the end of its block, or of a part that it stands in",
        8 => "types fit",
        18 => "no CALL names a version of a higher level",
        9 => "a block's mark covers its effect",
        10 => "no register is read before it is assigned, used while it is empty, or emptied after it is captured",
        11 => "the version that a run enters exists",
        19 => "the version that a run enters is of the run's level or lower",
        12 => "each argument matches its parameter, and there are as many",
        13 => "the result buffer has at least 16 places",
        15 => "every version with a live call has the same bytes and number in both images",
        16 => "every literal of an image that is moved fits 32 bits",
        17 => "a moved image has at most 32,768 bytes and fits the buffer",
        20 => "a step lies behind the state",
        21 => "the reserves of a pool sum to at most 64, and a run's number is at most 7",
        22 => "a list has a record for each register of the topmost call",
        23 => "a joined image has at most 32,768 bytes, 32 functions and 64 versions and fits the buffer",
        _ => "no question has this number",
    }
}

#[cfg(test)]
mod tests {
    use super::*;
    use library::FACTORY;

    /// The line for a refusal of some image.
    fn said(image: &[u8], question: u8, offset: usize) -> String {
        let source = Source::bytes(image.to_vec(), "image");
        of_image(Form::Wide, &source, Refusal { question, offset }).line(&source)
    }

    #[test]
    fn a_refusal_that_no_diagnosis_explains_gets_the_rule() {
        let text = "version 0.0(r0: int) -> int\nlevel portal\nblock 0 quiet -> r0";
        let image = text::assemble(text).expect("a text that is well formed");
        for question in 1..=23 {
            for offset in [0, 11, 16, 23, 400_000] {
                let expected = format!("refused by {question} at {offset}: {}", rule(question));
                assert_eq!(said(&image, question, offset), expected);
            }
        }
    }

    #[test]
    fn a_short_buffer_is_refused_in_words() {
        let source = Source::bytes(Vec::new(), "image");
        let call = Call {
            file: "-".into(),
            level: FACTORY,
            entry: Entry {
                function: 0,
                version: 0,
            },
            arguments: Vec::new(),
            budget: 0,
            then: Vec::new(),
        };
        let no = Refusal {
            question: 13,
            offset: 0,
        };
        assert_eq!(
            of_run(&source, no, &call).plain(),
            "refused by 13 at 0: the result buffer has at least 16 places"
        );
    }
}
