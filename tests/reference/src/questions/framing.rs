//! Questions 1 to 3: the image's size, its records, and their kinds and lengths.

use crate::bounds::MAX_IMAGE;
use crate::form::Form;
use crate::record::{Framed, Placed, Record};

/// Question 1: has the image 1..32,768 bytes?
pub fn question1(image: &[u8]) -> Result<(), usize> {
    if (1..=MAX_IMAGE).contains(&image.len()) {
        Ok(())
    } else {
        Err(0)
    }
}

/// Question 2: does each record have a full head, a length of at least 4, and end inside the image?
pub fn question2(image: &[u8]) -> Result<Vec<Framed<'_>>, usize> {
    let mut framed = Vec::new();
    let mut offset = 0;
    while offset < image.len() {
        let record = Framed::at(image, offset).ok_or(offset)?;
        offset = record.end();
        framed.push(record);
    }
    Ok(framed)
}

/// Question 3: is each kind known in the form, its length the one its fields make?
pub fn question3(form: Form, framed: &[Framed]) -> Result<Vec<Placed<Record>>, usize> {
    let read = |record: &Framed| {
        let item = Record::read_in(form, record.kind, record.body).ok_or(record.offset)?;
        let offset = record.offset;
        Ok(Placed { offset, item })
    };
    framed.iter().map(read).collect()
}

/// The records of an image that passes questions 2 and 3, whatever its size and order.
pub fn records(image: &[u8]) -> Option<Vec<Placed<Record>>> {
    records_in(Form::Wide, image)
}

/// The same of an image in a form.
pub fn records_in(form: Form, image: &[u8]) -> Option<Vec<Placed<Record>>> {
    question3(form, &question2(image).ok()?).ok()
}
