//! The definitions that the proved library equals, clause by clause in Rust: what any
//! bytes stand for as an image and its table, and as a state, and what a run of them
//! does. Where the reference of `tests/reference` follows the paper, which speaks of
//! accepted images and begun runs, this follows `crates/*/specs`, which speak of all.
//!
//! | definitions | modules |
//! |---|---|
//! | `loaded/specs/Loaded.antt` | [`program`] |
//! | `program/specs/Program.antt` | [`instruction`] |
//! | `store/specs/Store.antt` | [`store`] |
//! | `machine/specs/Try.antt`, `States.antt` | [`state`], `cells` |
//! | `machine/specs/Steps.antt`, `Values.antt`, `Calls.antt` | `steps`, `calls` |
//! | `machine/specs/Runs.antt` | [`runs`] |
//! | `machine/specs/Trails.antt` | [`trails`] |
//! | `machine/specs/Allowed.antt`, `Pools.antt` | [`runs`], `allowed`, [`pools`] |
//! | `machine/specs/Begin.antt` | `begin` |
//! | `machine/specs/Searches.antt`, `whereabouts/specs/Where.antt` | [`views`] |

mod allowed;
mod begin;
mod calls;
mod cells;
pub mod instruction;
pub mod pools;
pub mod program;
pub mod runs;
pub mod state;
mod steps;
pub mod store;
pub mod trails;
pub mod views;

pub use instruction::Instruction;
pub use pools::Pool;
pub use program::{Block, Position, Program, Version};
pub use runs::{Answer, Ran, Said};
pub use state::{Activation, End, Frame, Halt, Opener, Promise, State, Status, Try, Value, Vector};
pub use trails::{Behind, Trail};
pub use views::{Search, Where};
