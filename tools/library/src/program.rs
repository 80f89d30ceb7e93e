//! A program: an image, and the table that says where its parts stand.

#![allow(unsafe_code)] // The library is called across a C boundary.

use crate::answers::{Loaded, Refusal};
use crate::raw;
use std::borrow::Cow;

/// An image that was loaded, and its table. Runs borrow it, several at once too.
#[derive(Clone, PartialEq, Eq)]
pub struct Program {
    image: Vec<u8>,
    table: Vec<u8>,
}

impl Program {
    /// Puts an image to its questions, and loads it.
    pub fn load(image: impl Into<Vec<u8>>) -> Result<Program, Refusal> {
        let image = image.into();
        let mut table = vec![0; table_size(image.len())];
        match load(&image, &mut table) {
            Loaded::Ready { .. } => Ok(Program { image, table }),
            Loaded::Refused(refusal) => Err(refusal),
            Loaded::Short(bytes) => panic!("the library asks for a table of {bytes} bytes"),
        }
    }

    /// Any bytes as an image and as its table. Every call with them answers, by what they
    /// stand for together, and keeps to its memory; nothing that is promised of an image
    /// that was loaded holds.
    pub fn of_any_bytes(image: impl Into<Vec<u8>>, table: impl Into<Vec<u8>>) -> Program {
        Program {
            image: image.into(),
            table: table.into(),
        }
    }

    /// The image.
    pub fn image(&self) -> &[u8] {
        &self.image
    }

    /// Its table.
    pub fn table(&self) -> &[u8] {
        &self.table
    }
}

impl From<Program> for Cow<'_, Program> {
    fn from(program: Program) -> Self {
        Cow::Owned(program)
    }
}

impl<'p> From<&'p Program> for Cow<'p, Program> {
    fn from(program: &'p Program) -> Self {
        Cow::Borrowed(program)
    }
}

/// The bytes of a table for an image of so many.
pub fn table_size(image_length: usize) -> usize {
    // SAFETY: the function takes a number.
    unsafe { raw::fir_table_size(image_length) }
}

/// Puts an image to its questions and fills its table, which is lent. Where the image is
/// not loaded, the table has no version.
pub fn load(image: &[u8], table: &mut [u8]) -> Loaded {
    let (bytes, places) = (image.len(), table.len());
    // SAFETY: only the bytes of the image are read and only places of the table are
    // written, and `&mut` lends these apart from those.
    unsafe { raw::fir_load(image.as_ptr(), bytes, table.as_mut_ptr(), places) }.into()
}
