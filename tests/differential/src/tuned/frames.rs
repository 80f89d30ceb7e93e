//! The registers and names of frames.

use reference::bounds::{ACTIVATIONS, NAMES, REGISTERS};
use reference::Kind;
use std::mem::swap;

/// The registers and names of a frame.
pub const CELLS: usize = REGISTERS + NAMES;

/// The places of a frame: as many as a byte has numbers, so that none lies outside.
const PLACES: usize = 256;

/// What a register or a name holds.
#[derive(Clone, Copy, PartialEq)]
pub struct Cell {
    /// The integer or the place that it holds.
    number: i64,
    /// The number of its kind; 0 where it is empty.
    kind: u8,
}

impl Cell {
    /// An empty register or an unset name.
    pub const EMPTY: Cell = Cell { number: 0, kind: 0 };

    /// An integer.
    #[inline(always)]
    pub fn integer(number: i64) -> Cell {
        let kind = Kind::INTEGER.0;
        Cell { number, kind }
    }

    /// A vector or a promise of a kind at a place.
    #[inline(always)]
    pub fn at(kind: u8, place: usize) -> Cell {
        let number = place as i64;
        Cell { number, kind }
    }

    /// Is it empty?
    #[inline(always)]
    pub fn is_empty(self) -> bool {
        self.kind == 0
    }

    /// The number of its kind; 0 where it is empty.
    #[inline(always)]
    pub fn kind(self) -> u8 {
        self.kind
    }

    /// The integer that it holds.
    #[inline(always)]
    pub fn number(self) -> i64 {
        self.number
    }

    /// The place of the vector or promise that it holds, below 64.
    #[inline(always)]
    pub fn place(self) -> usize {
        place(self.number)
    }
}

/// A number as the place of a vector or a promise, below 64.
#[inline(always)]
fn place(number: i64) -> usize {
    (number & 63) as usize
}

/// A frame: its registers, and behind them its names. A register or a name that is empty
/// has kind 0 and any number.
#[derive(Clone)]
pub struct Frame {
    numbers: [i64; PLACES],
    kinds: [u8; PLACES],
}

impl Frame {
    /// A frame without a value.
    fn new() -> Frame {
        Frame {
            numbers: [0; PLACES],
            kinds: [0; PLACES],
        }
    }

    /// What a register or a name holds.
    #[inline(always)]
    pub fn get(&self, cell: u8) -> Cell {
        let cell = usize::from(cell);
        Cell {
            number: self.numbers[cell],
            kind: self.kinds[cell],
        }
    }

    /// The integer in a register.
    #[inline(always)]
    pub fn integer(&self, register: u8) -> i64 {
        self.numbers[usize::from(register)]
    }

    /// The place of the vector or promise in a register.
    #[inline(always)]
    pub fn place(&self, register: u8) -> usize {
        place(self.integer(register))
    }

    /// The number of the kind of what a register or a name holds.
    #[inline(always)]
    pub fn kind(&self, cell: u8) -> u8 {
        self.kinds[usize::from(cell)]
    }

    /// Puts a value into a register or a name.
    #[inline(always)]
    pub fn put(&mut self, cell: u8, value: Cell) {
        let cell = usize::from(cell);
        (self.numbers[cell], self.kinds[cell]) = (value.number, value.kind);
    }

    /// Puts an integer into a register.
    #[inline(always)]
    pub fn put_integer(&mut self, register: u8, integer: i64) {
        self.put(register, Cell::integer(integer));
    }

    /// Empties a register.
    #[inline(always)]
    pub fn empty(&mut self, register: u8) {
        self.kinds[usize::from(register)] = 0;
    }

    /// Empties all registers and names.
    #[inline(always)]
    pub fn clear(&mut self) {
        self.kinds[..CELLS].fill(0);
    }

    /// The places in registers and names whose kind passes, one bit each.
    fn held(&self, passes: impl Fn(u8) -> bool) -> u64 {
        let cells = self.kinds[..CELLS].iter().zip(&self.numbers);
        cells.fold(0, |held, (&kind, &number)| {
            held | u64::from(passes(kind)) << place(number)
        })
    }
}

/// The frames of all calls that may live, but for the one that is worked on, which is out.
pub struct Frames {
    frames: [Box<Frame>; ACTIVATIONS],
}

impl Frames {
    /// Frames without a value, the first of which is out.
    pub fn new() -> (Frames, Box<Frame>) {
        let frame = |_| Box::new(Frame::new());
        let frames = std::array::from_fn(frame);
        (Frames { frames }, Box::new(Frame::new()))
    }

    /// Puts the frame that is out back, and takes another one out.
    #[inline(always)]
    pub fn turn(&mut self, out: &mut Box<Frame>, own: &mut usize, other: usize) {
        swap(out, &mut self.frames[*own % ACTIVATIONS]);
        swap(out, &mut self.frames[other % ACTIVATIONS]);
        *own = other;
    }

    /// A frame that is not out.
    #[inline(always)]
    pub fn at(&mut self, frame: usize) -> &mut Frame {
        &mut self.frames[frame % ACTIVATIONS]
    }

    /// The places of the vectors that the first frames hold, and the one that is out, one
    /// bit each.
    #[cold]
    #[inline(never)]
    pub fn vectors(&self, out: &Frame, frames: usize) -> u64 {
        self.held(out, frames, |kind| kind == Kind::VECTOR.0)
    }

    /// The places of the promises that they hold.
    #[cold]
    #[inline(never)]
    pub fn promises(&self, out: &Frame, frames: usize) -> u64 {
        self.held(out, frames, |kind| kind >= Kind::QUIET.0)
    }

    /// The places whose kind passes. What stands in place of the frame that is out holds
    /// nothing.
    fn held(&self, out: &Frame, frames: usize, passes: impl Fn(u8) -> bool) -> u64 {
        let frames = self.frames[..frames].iter();
        frames.fold(out.held(&passes), |held, frame| held | frame.held(&passes))
    }
}
