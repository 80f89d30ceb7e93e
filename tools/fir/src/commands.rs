//! What each command does.

use crate::bounds;
use crate::checking;
use crate::command::{Command, Conversion};
use crate::debug;
use crate::explain;
use crate::failure::{Failure, Status};
use crate::formatting;
use crate::joining;
use crate::lint;
use crate::mending;
use crate::moving;
use crate::pool;
use crate::running::{self, Manner, Showing};
use crate::source::{self, Source};
use crate::streams::Streams;
use crate::telling::Format;
use crate::testing;
use crate::writing;
use crate::DONE;

/// Does what a command line asks for; the exit status.
pub fn execute(command: &Command, streams: &mut Streams) -> Result<Status, Failure> {
    match command {
        Command::Help(text) => print(text, streams),
        Command::Version => print(&version(), streams),
        Command::Check(asked) => checking::all(asked, streams),
        Command::Run { call, stats, json } => {
            let manner = match stats {
                true => Manner::Counted,
                false => Manner::Budgets,
            };
            running::run(call, showing(manner, *stats, *json), streams)
        }
        Command::Trace {
            call,
            stats,
            json,
            html,
        } => {
            let manner = html.as_deref().map_or(Manner::Steps, Manner::Page);
            running::run(call, showing(manner, *stats, *json), streams)
        }
        Command::Pool(asked) => pool::all(asked, streams),
        Command::Bounds(asked) => bounds::all(asked, streams),
        Command::Debug(call) => debug::debug(call, streams),
        Command::Lint(asked) => lint::all(asked, streams),
        Command::Test(asked) => testing::all(asked, streams),
        Command::Move(asked) => moving::all(asked, streams),
        Command::Join(asked) => joining::all(asked, streams),
        Command::Mend(asked) => mending::one(asked, streams),
        Command::Format(asked) => formatting::all(asked, streams),
        Command::Assemble(conversion) => assemble(conversion, streams),
        Command::Disassemble(conversion) => disassemble(conversion, streams),
        Command::Explain(subject) => print(&explain::text(*subject), streams),
        Command::Completion(shell) => print(&shell.script(), streams),
    }
}

/// What `fir --version` prints: its own version, and the numbers of its library.
fn version() -> String {
    let (own, built) = (env!("CARGO_PKG_VERSION"), library::version());
    let (interface, layout) = (built.interface_number, built.state_layout);
    format!("fir {own}\nlibrary: interface {interface}, layout of a state {layout}\n")
}

/// Prints a text.
fn print(text: &str, streams: &mut Streams) -> Result<Status, Failure> {
    streams.write(text.as_bytes())?;
    DONE
}

/// How a run is done and shown.
fn showing(manner: Manner, stats: bool, json: bool) -> Showing {
    Showing {
        manner,
        format: match json {
            true => Format::Json,
            false => Format::Lines,
        },
        stats,
    }
}

/// Asks that a conversion does not write to the file that it reads.
fn ask_apart(command: &'static str, conversion: &Conversion) -> Result<(), Failure> {
    let Conversion { file, out } = conversion;
    match out {
        Some(out) => writing::ask_apart(command, [file.as_os_str()], out),
        None => Ok(()),
    }
}

/// `fir asm`
fn assemble(conversion: &Conversion, streams: &mut Streams) -> Result<Status, Failure> {
    ask_apart("asm", conversion)?;
    let text = source::text_of(&conversion.file, streams)?;
    let source = Source::text(text, &source::name(&conversion.file))?;
    source::put(conversion.out.as_ref(), &source.image, streams)?;
    DONE
}

/// `fir dis`
fn disassemble(conversion: &Conversion, streams: &mut Streams) -> Result<Status, Failure> {
    ask_apart("dis", conversion)?;
    let image = source::bytes_of(&conversion.file, streams)?;
    let text = text::disassemble(&image);
    source::put(conversion.out.as_ref(), text.as_bytes(), streams)?;
    DONE
}
