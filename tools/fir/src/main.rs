//! The tool `fir`: see the library of the same name.

use std::env;
use std::ffi::OsString;
use std::io::{self, IsTerminal};
use std::process::ExitCode;

fn main() -> ExitCode {
    let arguments: Vec<OsString> = env::args_os().skip(1).collect();
    let (input, output, errors) = (io::stdin(), io::stdout(), io::stderr());
    let (terminal, interactive) = (errors.is_terminal(), input.is_terminal());
    let mut streams = fir::Streams {
        input: &mut input.lock(),
        output: &mut io::BufWriter::new(output.lock()),
        errors: &mut errors.lock(),
        terminal,
        interactive,
    };
    fir::run(&arguments, &mut streams).into()
}
