//! The command-line tool `fir`: it checks, mends, runs, traces, moves, joins, assembles
//! and disassembles FIR images, lets eight of their runs share their vectors, and says how
//! many steps runs can take.
//!
//! Verdicts, mends, bounds, runs, single steps, moved and joined images are those of the proved library. What
//! the tool adds are words: why an image or a run is refused, and what a step did; and
//! files that are written whole.

mod arguments;
mod bounds;
mod checking;
mod command;
mod commands;
mod completion;
mod debug;
mod explain;
mod failure;
mod formatting;
mod help;
mod joining;
mod json;
mod lint;
mod manual;
mod mending;
mod moving;
mod number;
mod options;
mod page;
mod place;
mod pool;
mod refusal;
mod running;
mod several;
mod single;
mod source;
mod stats;
mod streams;
mod telling;
mod testing;
mod trace;
mod writing;

pub use streams::Streams;

use command::Command;
use failure::{Failure, Status};
use std::ffi::OsString;

/// Does what the arguments say, those after the tool's name; the exit status.
pub fn run(arguments: &[OsString], streams: &mut Streams) -> u8 {
    let done = Command::parse(arguments).and_then(|command| commands::execute(&command, streams));
    let status = match done {
        Ok(status) => status,
        Err(failure) => {
            failure.tell(streams);
            failure.status()
        }
    };
    match streams.flush() {
        Ok(()) | Err(Failure::Closed) => status as u8,
        Err(failure) => {
            failure.tell(streams);
            failure.status() as u8
        }
    }
}

/// The status of a command that did what it should.
const DONE: Result<Status, Failure> = Ok(Status::Yes);
