//! Why an image is not moved: questions 16 and 17, which literal does not fit and how
//! long it would be; and literals that have the other form already.

use reference::bounds::MAX_IMAGE;
use reference::record::{Framed, Record};
use reference::{moved, Form, Instruction, Range};

/// Question 3: the literal at an offset that is of the form to move to.
pub fn already(form: Form, image: &[u8], offset: usize) -> Option<String> {
    let to = form.other();
    let bits = match to {
        Form::Narrow => 32,
        Form::Wide => 64,
    };
    let kind = Framed::at(image, offset)?.kind;
    (kind == to.literal()).then(|| format!("LIT is of kind {kind} and has {bits} bits already"))
}

/// Question 16: the literal at an offset that does not fit 32 bits.
pub fn literal(image: &[u8], offset: usize) -> Option<String> {
    let framed = Framed::at(image, offset)?;
    match Record::read(framed.kind, framed.body)? {
        Record::Instruction(Instruction::Lit { value, .. }) => {
            let Range { least, greatest } = Range::NARROW;
            let unfit = Range::NARROW.ranged(value).is_none();
            unfit.then(|| format!("LIT has {value}, and 32 bits hold {least} to {greatest}"))
        }
        _ => None,
    }
}

/// Question 17: how long an image of a form would be in the other.
pub fn room(form: Form, image: &[u8]) -> Option<String> {
    let length = moved(form, image)?.len();
    (length > MAX_IMAGE)
        .then(|| format!("moved it would have {length} bytes, and 32,768 are the most"))
}
