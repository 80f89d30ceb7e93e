//! Standard input, output and error.

use crate::failure::Failure;
use std::io::{ErrorKind, Read, Write};

/// The streams that a command reads and writes.
pub struct Streams<'a> {
    /// Where `-` is read from.
    pub input: &'a mut dyn Read,
    /// Where answers go.
    pub output: &'a mut dyn Write,
    /// Where complaints go.
    pub errors: &'a mut dyn Write,
    /// Do complaints go to a terminal, which also shows how far a command is?
    pub terminal: bool,
    /// Does the input come from a terminal, where somebody waits for a prompt?
    pub interactive: bool,
}

impl Streams<'_> {
    /// Writes bytes to the output.
    pub fn write(&mut self, bytes: &[u8]) -> Result<(), Failure> {
        written(self.output.write_all(bytes))
    }

    /// Writes a line to the output.
    pub fn line(&mut self, line: &str) -> Result<(), Failure> {
        self.write(format!("{line}\n").as_bytes())
    }

    /// Sees to it that what was written has gone out.
    pub fn flush(&mut self) -> Result<(), Failure> {
        written(self.output.flush())
    }

    /// Writes a line to standard error; where that is not possible, nothing can be said.
    pub fn complain(&mut self, line: &str) {
        let _ = self.flush();
        let _ = writeln!(self.errors, "{line}");
    }
}

/// The most bytes of a line that is read.
const LINE_BYTES: usize = 4096;

impl Streams<'_> {
    /// The next line of the input, without its end; none at the end of the input.
    pub fn input_line(&mut self) -> Result<Option<String>, Failure> {
        let (mut line, mut byte) = (Vec::new(), [0]);
        loop {
            let read = self.input.read(&mut byte);
            let read = read.map_err(|error| {
                Failure::File(format!("standard input: cannot be read: {error}"))
            })?;
            let ended = read == 0;
            if ended && line.is_empty() {
                return Ok(None);
            }
            if ended || byte[0] == b'\n' {
                return Ok(Some(String::from_utf8_lossy(&line).into_owned()));
            }
            if line.len() < LINE_BYTES {
                line.push(byte[0]);
            }
        }
    }
}

/// Takes back what the last line of a terminal shows.
const CLEARED: &str = "\r\x1b[K";

impl Streams<'_> {
    /// Shows on a terminal how far a command is, in place of what was shown before;
    /// nothing where there is none.
    pub fn progress(&mut self, shown: &str) -> Result<(), Failure> {
        if self.terminal {
            self.flush()?;
            let _ = write!(self.errors, "{CLEARED}{shown}");
            let _ = self.errors.flush();
        }
        Ok(())
    }
}

/// The failure of a write to the output.
fn written(result: std::io::Result<()>) -> Result<(), Failure> {
    result.map_err(|error| match error.kind() {
        ErrorKind::BrokenPipe => Failure::Closed,
        _ => Failure::File(format!("the output cannot be written: {error}")),
    })
}
