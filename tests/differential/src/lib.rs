//! The proved library beside the reference: its answers in the words of the
//! reference, runs that are held to the bounds of their entries, the images at the
//! edges, images that are hard to mend, a second interpreter to time it against, and what compares answers.

pub mod broken;
pub mod comparison;
pub mod difference;
pub mod edges;
pub mod engine;
pub mod lent;
pub mod paced;
pub mod parallel;
pub mod pooled;
pub mod snapshot;
#[cfg(feature = "stand_in")]
mod stand_in;
pub mod tuned;
pub mod words;
pub mod workloads;

pub use engine::verdict;
