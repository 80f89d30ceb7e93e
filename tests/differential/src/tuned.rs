//! A second interpreter, for accepted images only and tuned for speed: each
//! instruction is decoded once, with what its types and its callees decide,
//! and nothing that the checker rules out is looked at again.

mod code;
mod frames;
mod machine;
mod places;

pub use code::Code;
pub use machine::Machine;
