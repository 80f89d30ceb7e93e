//! Result buffers to lend, with places beside them.

use reference::Integer;

/// Places beside a lent buffer, before it and after it.
const MARGIN: usize = 8;

/// A buffer to lend, between margins, every place with a number of its own.
#[derive(Clone, PartialEq, Eq, Debug)]
pub struct Lent {
    places: usize,
    memory: Vec<Integer>,
}

impl Lent {
    /// A buffer of so many places.
    pub fn new(places: usize, event: usize) -> Lent {
        let number = |place: usize| {
            0x5A00_0000_5A00_0000 ^ (place * 0x0001_0101_0001_0101 + event) as Integer
        };
        Lent {
            places,
            memory: (0..places + 2 * MARGIN).map(number).collect(),
        }
    }

    /// The places that are lent.
    pub fn places(&mut self) -> &mut [Integer] {
        &mut self.memory[MARGIN..MARGIN + self.places]
    }
}
