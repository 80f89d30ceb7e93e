//! The state of a run, with all of its places, and what a part of a step comes to.

/// The frames and activations of a state.
pub const ACTIVATIONS: usize = 32;
/// The registers and the names of a frame.
pub const REGISTERS: usize = 16;
/// The names of a frame.
pub const NAMES: usize = 8;
/// The vectors of a state, and its promises.
pub const PLACES: usize = 64;
/// The items of a vector.
pub const ITEMS: usize = 16;

/// What a register or a name holds.
#[derive(Clone, Copy, PartialEq, Eq, Debug)]
pub enum Value {
    /// Nothing.
    Empty,
    /// An integer.
    Integer(i64),
    /// The vector of a number.
    Vector(u8),
    /// The promise of a number.
    Promise(u8),
}

/// The frame of a call.
#[derive(Clone, Copy, PartialEq, Eq, Debug)]
pub struct Frame {
    /// The function of its version.
    pub function: u8,
    /// The number of its version.
    pub version: u8,
    /// Its registers.
    pub registers: [Value; REGISTERS],
    /// Its names.
    pub names: [Value; NAMES],
}

/// What opened an activation.
#[derive(Clone, Copy, PartialEq, Eq, Debug)]
pub enum Opener {
    /// A call.
    Call,
    /// A force of the promise of a number.
    Force(u8),
}

/// A block at work in a frame.
#[derive(Clone, Copy, PartialEq, Eq, Debug)]
pub struct Activation {
    /// What opened it.
    pub opener: Opener,
    /// The register that waits for its result.
    pub d: u8,
    /// Its frame.
    pub frame: u8,
    /// Its block.
    pub block: u8,
    /// The number of its next instruction.
    pub next: u8,
}

/// A vector: the first so many of its items.
#[derive(Clone, Copy, PartialEq, Eq, Debug)]
pub struct Vector {
    /// How many.
    pub length: u8,
    /// All of its places.
    pub items: [i64; ITEMS],
}

/// A block delayed in a frame.
#[derive(Clone, Copy, PartialEq, Eq, Debug)]
pub struct Promise {
    /// Its frame.
    pub frame: u8,
    /// Its block.
    pub block: u8,
    /// The integer of one that was forced.
    pub cache: Option<i64>,
}

/// How a run ended.
#[derive(Clone, Copy, PartialEq, Eq, Debug)]
#[allow(missing_docs)] // The names are the paper's.
pub enum End {
    Integer(i64),
    Vector(u8),
    Undef,
    Deep,
    Vectors,
    Promises,
}

/// Whether a run goes on.
#[derive(Clone, Copy, PartialEq, Eq, Debug)]
pub enum Status {
    /// It goes on.
    Running,
    /// It ended so.
    Ended(End),
}

/// The state of a run; what lies above a count is part of it.
#[derive(Clone, PartialEq, Eq, Debug)]
pub struct State {
    /// The frames, the oldest first.
    pub frames: [Frame; ACTIVATIONS],
    /// How many are live.
    pub calls: u8,
    /// The activations, the oldest first.
    pub activations: [Activation; ACTIVATIONS],
    /// How many are live.
    pub depth: u8,
    /// The vectors.
    pub vectors: [Vector; PLACES],
    /// The promises.
    pub promises: [Promise; PLACES],
    /// The items that the run is DONE with.
    pub result: [i64; ITEMS],
    /// Whether it goes on.
    pub status: Status,
}

/// Why a part of a step has no result.
#[derive(Clone, Copy, PartialEq, Eq, Debug)]
pub enum Halt {
    /// It is stuck.
    Stuck,
    /// It ends the run.
    Stop(End),
}

/// What a part of a step comes to.
pub type Try<T> = Result<T, Halt>;

/// Stuck, unless the test holds.
pub fn stuck_unless(test: bool) -> Try<()> {
    test.then_some(()).ok_or(Halt::Stuck)
}

/// The end of the run, unless the test holds.
pub fn end_unless(end: End, test: bool) -> Try<()> {
    test.then_some(()).ok_or(Halt::Stop(end))
}

/// What stands at a place; stuck where there is none.
pub fn at<T>(places: &[T], place: u8) -> Try<&T> {
    places.get(usize::from(place)).ok_or(Halt::Stuck)
}

impl Frame {
    /// A frame with empty registers and unset names.
    pub fn new(function: u8, version: u8) -> Frame {
        Frame {
            function,
            version,
            registers: [Value::Empty; REGISTERS],
            names: [Value::Empty; NAMES],
        }
    }
}

impl Vector {
    /// A vector of items, of which there are no more than places.
    pub fn new(given: &[i64]) -> Vector {
        let mut items = [0; ITEMS];
        items[..given.len()].copy_from_slice(given);
        Vector {
            length: given.len() as u8,
            items,
        }
    }

    /// Its items: of its places the first, as many as its length says.
    pub fn items(&self) -> &[i64] {
        &self.items[..usize::from(self.length).min(ITEMS)]
    }
}

impl State {
    /// The state without calls that a run begins from.
    pub fn empty() -> State {
        State {
            frames: [Frame::new(0, 0); ACTIVATIONS],
            calls: 0,
            activations: [Activation {
                opener: Opener::Call,
                d: 0,
                frame: 0,
                block: 0,
                next: 0,
            }; ACTIVATIONS],
            depth: 0,
            vectors: [Vector::new(&[]); PLACES],
            promises: [Promise {
                frame: 0,
                block: 0,
                cache: None,
            }; PLACES],
            result: [0; ITEMS],
            status: Status::Running,
        }
    }

    /// The frames of the live calls.
    pub fn live_frames(&self) -> &[Frame] {
        &self.frames[..usize::from(self.calls).min(ACTIVATIONS)]
    }

    /// The live activations.
    pub fn live_activations(&self) -> &[Activation] {
        &self.activations[..usize::from(self.depth).min(ACTIVATIONS)]
    }

    /// The first part in which another state differs; none where it is the same.
    pub fn difference(&self, other: &State) -> Option<String> {
        let counts = |state: &State| (state.calls, state.depth, state.status);
        differ("calls, depth and status", &counts(self), &counts(other))
            .or_else(|| first("activation", &self.activations, &other.activations))
            .or_else(|| first("frame", &self.frames, &other.frames))
            .or_else(|| first("vector", &self.vectors, &other.vectors))
            .or_else(|| first("promise", &self.promises, &other.promises))
            .or_else(|| differ("result", &self.result, &other.result))
    }
}

/// What is expected and what is found, where they differ.
fn differ<T: PartialEq + std::fmt::Debug>(part: &str, expected: &T, found: &T) -> Option<String> {
    (expected != found).then(|| format!("{part}: expected {expected:?}, found {found:?}"))
}

/// The first place at which two lists differ.
fn first<T: PartialEq + std::fmt::Debug>(
    part: &str,
    expected: &[T],
    found: &[T],
) -> Option<String> {
    let mut pairs = expected.iter().zip(found).enumerate();
    pairs.find_map(|(place, (e, f))| differ(&format!("{part} {place}"), e, f))
}
