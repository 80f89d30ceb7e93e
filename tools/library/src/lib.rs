//! The proved FIR library, safe to call: it checks images, mends, moves, joins and
//! runs them, and says how many steps their runs can take.
//!
//! What `fir.h` asks of its caller holds by construction: slices and `&mut` rule
//! out null, misaligned and overlapping memory, that a state has the layout that
//! the library was built with is asserted once, a [`Program`] holds an image with its
//! table, a [`Run`] the program in force, so that no step goes by another, a [`Trail`] a run
//! with its start, so that no step is left out of its count, and a [`Pool`] eight runs with
//! the store that they share, so that none goes on beside it.
//! [`Run::resume_with_its_own_program`], [`Trail::resume_with_its_own_run`],
//! [`Pool::resume_with_its_own_runs`], the functions of a [`Store`] and
//! [`Program::of_any_bytes`] alone leave something to their caller.

mod answers;
mod bounding;
mod checking;
mod constants;
mod joining;
mod mending;
mod moving;
mod parts;
mod pool;
mod program;
mod raw;
mod run;
mod state;
mod store;
mod trail;
mod watching;
mod words;

pub use answers::{
    Answer, At, End, Held, Loaded, Position, Ran, Refusal, Said, Search, Unjoined, Verdict,
};
pub use bounding::{bounds, bounds_into, Bound, Row, ROW_NUMBERS};
pub use checking::{report, verdict};
pub use constants::*;
pub use joining::join;
pub use mending::{mend, Mended};
pub use moving::{narrow, report_in, verdict_in, widen, Form};
pub use parts::{Activation, Opener, Promise};
pub use pool::{Number, Pool};
pub use program::{load, table_size, Program};
#[cfg(feature = "stand_in")]
pub use raw::{
    FirAnswer, FirEntry, FirJoined, FirLoaded, FirMended, FirPosition, FirSaid, FirSearched,
    FirTurn, FirValue, FirVerdict, FirVersions, FirWatched,
};
pub use run::{Entry, Run, FACTORY, PORTAL, STAFF};
pub use state::{version, State, Versions, ACTIVATION, CELLS, OWNER, PROMISE, SPARE};
pub use store::{Start, Store};
pub use trail::{Kept, Trail};
pub use watching::Register;
pub use words::{answer_text, question_text};
