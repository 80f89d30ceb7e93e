//! What stands in an image one after another, and the counts that it makes.

use reference::record::Framed;
use reference::Record;

/// A record, or bytes that make none.
#[derive(Clone, PartialEq, Eq, Debug)]
pub enum Item {
    /// A record whose kind is known and whose length is that of its fields.
    Record(Record),
    /// Any other bytes.
    Bytes(Vec<u8>),
}

impl Item {
    /// The bytes of the item.
    pub fn bytes(&self) -> Vec<u8> {
        match self {
            Item::Record(record) => record.bytes(),
            Item::Bytes(bytes) => bytes.clone(),
        }
    }
}

/// The items of an image: from the first place without a record on, only bytes.
pub fn items(image: &[u8]) -> Vec<Item> {
    let mut items = Vec::new();
    let mut offset = 0;
    while offset < image.len() {
        let Some(framed) = Framed::at(image, offset) else {
            items.push(Item::Bytes(image[offset..].to_vec()));
            break;
        };
        items.push(match Record::read(framed.kind, framed.body) {
            Some(record) => Item::Record(record),
            None => Item::Bytes(image[offset..framed.end()].to_vec()),
        });
        offset = framed.end();
    }
    items
}

/// For each item the count that what follows makes: a version's blocks, a
/// block's instructions, else 0.
pub fn implied_counts(items: &[Item]) -> Vec<usize> {
    let (mut blocks, mut instructions) = (0, 0);
    let mut counts = vec![0; items.len()];
    for (item, count) in items.iter().zip(&mut counts).rev() {
        match item {
            Item::Record(Record::Version(_)) => {
                *count = blocks;
                (blocks, instructions) = (0, 0);
            }
            Item::Record(Record::Block(_)) => {
                *count = instructions;
                blocks += 1;
                instructions = 0;
            }
            Item::Record(Record::Instruction(_)) => instructions += 1,
            Item::Record(Record::Level(_)) | Item::Bytes(_) => {}
        }
    }
    counts
}
