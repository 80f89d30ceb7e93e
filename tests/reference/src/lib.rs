//! An independent reference of FIR, written from the paper alone: a checker of
//! images and an evaluator of runs, clear before fast.
//!
//! The modules follow the sections of the paper, and rules by instruction
//! stand in the order of their kind numbers:
//!
//! | section | modules |
//! |---|---|
//! | Values and types | [`types`] |
//! | Image | [`bounds`], [`kinds`], [`form`], [`instruction`], [`record`], [`program`] |
//! | Questions put to an image | [`questions`], [`begin`], [`change`] |
//! | Types fit when | [`questions`] |
//! | Flow | [`flow`] |
//! | Steps | [`state`], [`counts`], [`outside`], [`steps`], [`search`], [`position`] |
//! | What demand 3 speaks of | [`monitor`], [`watched`] |
//! | Program | [`report`] |
//! | Moving stored images | [`moves`] |
//! | Two images into one | [`joins`] |
//! | Smallest mend | [`mends`] |
//! | Levels of staff | [`types`], [`questions`], [`begin`], [`search`], [`monitor`] |
//! | How long at most | [`longest`] |
//! | Step back | [`trail`] |
//! | Eight scripts, one store | [`pool`] |
//! | Watching a call | [`watch`] |

pub mod begin;
pub mod bounds;
pub mod change;
pub mod counts;
pub mod flow;
pub mod form;
pub mod instruction;
pub mod joins;
pub mod kinds;
pub mod longest;
pub mod mends;
pub mod monitor;
pub mod moves;
pub mod outside;
pub mod pool;
pub mod position;
pub mod program;
pub mod questions;
pub mod record;
pub mod report;
pub mod search;
pub mod state;
pub mod steps;
pub mod trail;
pub mod types;
pub mod watch;
pub mod watched;

pub use begin::begin;
pub use bounds::Integer;
pub use change::change;
pub use form::{Form, Range};
pub use instruction::{Instruction, Name, Register};
pub use joins::{join, join_accepted, Unjoined};
pub use longest::{bounds_of, Bound};
pub use mends::{mend, Mended};
pub use moves::{move_accepted, move_from, moved, widened};
pub use pool::Pool;
pub use position::Position;
pub use program::Program;
pub use questions::{questions_1_to_7, verdict, verdict_in, Refusal, Verdict};
pub use record::Record;
pub use report::{report, report_in, report_of};
pub use search::Search;
pub use state::{End, State, Status, Value};
pub use steps::{Answer, Said};
pub use trail::Trail;
pub use types::{Kind, Level, Mark, Ownership, Type};
