//! "Moving stored images": an image in the other form, and questions 16 and 17.

use crate::bounds::MAX_IMAGE;
use crate::form::Form;
use crate::instruction::Instruction;
use crate::program::Program;
use crate::questions::{records_in, Refusal};
use crate::record::{Placed, Record};

/// The bytes of an image of a form, moved to the other form into a buffer of so
/// many places, or the first no: of the form's own questions, then 16, then 17.
pub fn move_from(form: Form, image: &[u8], places: usize) -> Result<Vec<u8>, Refusal> {
    Program::accept_in(form, image)?;
    move_accepted(form, image, places)
}

/// The same of an image that its form accepts.
pub fn move_accepted(form: Form, image: &[u8], places: usize) -> Result<Vec<u8>, Refusal> {
    let records = records_in(form, image).expect("an accepted image has records");
    question16(form.other(), &records)?;
    let moved = bytes(form.other(), &records);
    question17(moved.len(), places)?;
    Ok(moved)
}

/// Question 16: does each literal fit the numbers of the form?
fn question16(form: Form, records: &[Placed<Record>]) -> Result<(), Refusal> {
    let fits = |record: &Record| match record {
        Record::Instruction(Instruction::Lit { value, .. }) => {
            form.range().ranged(*value).is_some()
        }
        _ => true,
    };
    match records.iter().find(|placed| !fits(&placed.item)) {
        Some(failing) => Err(Refusal {
            number: 16,
            offset: failing.offset,
        }),
        None => Ok(()),
    }
}

/// Question 17: has the moved image at most 32,768 bytes, and room in the buffer?
fn question17(length: usize, places: usize) -> Result<(), Refusal> {
    if length <= MAX_IMAGE && length <= places {
        return Ok(());
    }
    Err(Refusal {
        number: 17,
        offset: 0,
    })
}

/// The bytes of records in a form.
fn bytes(form: Form, records: &[Placed<Record>]) -> Vec<u8> {
    let bytes = records.iter().flat_map(|placed| placed.item.bytes_in(form));
    bytes.collect()
}

/// The records of an image of a form in the other form, whether or not it is
/// accepted and however long it gets; none where question 2 or 3 refuses it. What
/// of a literal does not fit is cut off.
pub fn moved(form: Form, image: &[u8]) -> Option<Vec<u8>> {
    Some(bytes(form.other(), &records_in(form, image)?))
}

/// An image of 32 bits with each of its literals of kind 36, as [`moved`].
pub fn widened(image: &[u8]) -> Option<Vec<u8>> {
    moved(Form::Narrow, image)
}
