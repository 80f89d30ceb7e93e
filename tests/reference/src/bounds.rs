//! The bounds of the paper, each named once.

/// An integer in registers, vectors, argument words and the result buffer.
pub type Integer = i64;
/// A number of steps, as a budget gives it and as a result counts it.
pub type Steps = u32;

/// The most bytes of an image.
pub const MAX_IMAGE: usize = 32_768;
/// Functions are numbered below this.
pub const FUNCTIONS: usize = 32;
/// Versions of one function are numbered below this.
pub const VERSIONS_EACH: usize = 4;
/// The most versions of an image.
pub const VERSIONS: usize = 64;
/// The register places of a frame, and the most registers a version declares.
pub const REGISTERS: usize = 16;
/// The most parameters of a version.
pub const PARAMETERS: usize = 8;
/// The most blocks of a version.
pub const BLOCKS: usize = 8;
/// The most instructions of a block.
pub const INSTRUCTIONS: usize = 48;
/// The most registers that one VEC, CALL or DISPATCH lists: its n.
pub const LISTED: usize = 8;
/// The named variables of a frame.
pub const NAMES: usize = 8;
/// The most integers of a vector.
pub const ITEMS: usize = 16;
/// The fewest places of a result buffer.
pub const BUFFER: usize = 16;
/// The most activations that live at once.
pub const ACTIVATIONS: usize = 32;
/// The most vectors that count at once.
pub const VECTORS: usize = 64;
/// The most promises that count at once.
pub const PROMISES: usize = 64;
