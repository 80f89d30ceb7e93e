//! "Questions put to an image": each to the whole image before the next.

mod effect;
mod existence;
mod fit;
mod framing;
mod levels;
mod order;
mod places;
mod skips;

pub use fit::{gives, needs, result_fits, Gives, Need};
pub use framing::{records, records_in};

use crate::flow;
use crate::form::Form;
use crate::program::Program;

/// A no: the question's number and the offset of the first record that fails.
#[derive(Clone, Copy, PartialEq, Eq, PartialOrd, Ord, Hash, Debug)]
pub struct Refusal {
    /// The question that was answered with no.
    pub number: u8,
    /// Where the first record that fails begins.
    pub offset: usize,
}

/// The numbers of the questions put to an image, in the order in which they are put.
pub const QUESTIONS: [u8; 12] = [1, 2, 3, 4, 5, 6, 7, 14, 8, 18, 9, 10];

/// What the questions say of an image.
#[derive(Clone, Copy, PartialEq, Eq, Debug)]
pub enum Verdict {
    /// Every time yes, and how many versions the image has.
    Accepted(usize),
    /// The first no.
    Refused(Refusal),
}

/// What the questions say of an image.
pub fn verdict(image: &[u8]) -> Verdict {
    verdict_in(Form::Wide, image)
}

/// What the questions of a form say of an image.
pub fn verdict_in(form: Form, image: &[u8]) -> Verdict {
    Verdict::of(&Program::accept_in(form, image))
}

impl Verdict {
    /// The verdict that goes with the program of an image, or with the first no.
    pub fn of(answer: &Result<Program, Refusal>) -> Verdict {
        match answer {
            Ok(program) => Verdict::Accepted(program.versions.len()),
            Err(refusal) => Verdict::Refused(*refusal),
        }
    }
}

/// The first no among questions 1 to 7; none where all say yes.
pub fn questions_1_to_7(image: &[u8]) -> Option<Refusal> {
    exists(Form::Wide, image).err()
}

impl Program {
    /// The program of an image that passes questions 1 to 5, or the first no.
    pub fn ordered(image: &[u8]) -> Result<Program, Refusal> {
        Program::ordered_in(Form::Wide, image)
    }

    /// The same in a form.
    pub fn ordered_in(form: Form, image: &[u8]) -> Result<Program, Refusal> {
        put(1, framing::question1(image))?;
        let framed = put(2, framing::question2(image))?;
        let records = put(3, framing::question3(form, &framed))?;
        put(4, order::question4(&records, image.len()))?;
        let program = Program::gather(&records);
        put(5, order::question5(&program))?;
        Ok(program)
    }

    /// The program of an image that passes all the questions, or the first no.
    pub fn accept(image: &[u8]) -> Result<Program, Refusal> {
        Program::accept_in(Form::Wide, image)
    }

    /// The same in a form.
    pub fn accept_in(form: Form, image: &[u8]) -> Result<Program, Refusal> {
        let program = exists(form, image)?;
        put(14, skips::question14(&program))?;
        put(8, fit::question8(&program))?;
        put(18, levels::question18(&program))?;
        put(9, effect::question9(&program))?;
        put(10, flow::question10(&program))?;
        Ok(program)
    }
}

/// The program of an image that passes questions 1 to 7, or the first no.
fn exists(form: Form, image: &[u8]) -> Result<Program, Refusal> {
    let program = Program::ordered_in(form, image)?;
    put(6, places::question6(&program))?;
    put(7, existence::question7(&program))?;
    Ok(program)
}

/// A question's answer, its no under the question's number.
fn put<T>(number: u8, answer: Result<T, usize>) -> Result<T, Refusal> {
    answer.map_err(|offset| Refusal { number, offset })
}

/// Yes if every one passes; else the offset of the first that fails.
fn all_pass<T>(
    items: impl IntoIterator<Item = T>,
    offset: impl Fn(&T) -> usize,
    passes: impl Fn(&T) -> bool,
) -> Result<(), usize> {
    match items.into_iter().find(|item| !passes(item)) {
        Some(failing) => Err(offset(&failing)),
        None => Ok(()),
    }
}
