//! The tool in the same process, and files for it.

#![allow(dead_code)] // Each test uses a part of it.

pub mod doubles;
pub mod json;

use fir::Streams;
use std::ffi::OsString;
use std::fs;
use std::path::{Path, PathBuf};
use std::thread;

/// The exit status of UNDEF.
pub const UNDEF: u8 = 3;
/// The exit status of DEEP, VECTORS and PROMISES.
pub const STOPPED: u8 = 4;
/// The exit status of a budget that is used up.
pub const STEPS: u8 = 5;

/// What the tool did.
#[derive(Debug)]
pub struct Done {
    /// The exit status.
    pub status: u8,
    /// What went to standard output.
    pub output: Vec<u8>,
    /// What went to standard error.
    pub errors: String,
}

impl Done {
    /// Standard output as text.
    pub fn text(&self) -> String {
        String::from_utf8(self.output.clone()).expect("plain text")
    }
}

/// Asserts all that a command did.
#[track_caller]
pub fn did(done: &Done, status: u8, output: &str, errors: &str) {
    assert_eq!(done.text(), output);
    assert_eq!(done.errors, errors);
    assert_eq!(done.status, status);
}

/// An empty folder of a test's own.
pub fn folder(group: &str, test: &str) -> String {
    let folder = Path::new(env!("CARGO_TARGET_TMPDIR"))
        .join(group)
        .join(test);
    let _ = fs::remove_dir_all(&folder);
    fs::create_dir_all(&folder).expect("a folder is made");
    folder.to_str().expect("a plain path").to_string()
}

/// A file in a folder.
pub fn put(folder: &str, name: &str, content: &[u8]) -> String {
    let path = format!("{folder}/{name}");
    fs::write(&path, content).expect("a file is written");
    path
}

/// The names in a folder, in order.
pub fn names(folder: &str) -> Vec<String> {
    let entries = fs::read_dir(folder).expect("a folder");
    let name = |entry: std::io::Result<fs::DirEntry>| entry.expect("an entry").file_name();
    let mut names: Vec<String> = entries
        .map(|entry| name(entry).to_string_lossy().into_owned())
        .collect();
    names.sort();
    names
}

/// Does what the arguments say, with this standard input.
pub fn fir_of(arguments: &[OsString], input: &[u8]) -> Done {
    fir_on(arguments, input, false)
}

/// The same where standard error and input are, or are not, a terminal.
pub fn fir_on(arguments: &[OsString], mut input: &[u8], terminal: bool) -> Done {
    let (mut output, mut errors) = (Vec::new(), Vec::new());
    let status = fir::run(
        arguments,
        &mut Streams {
            input: &mut input,
            output: &mut output,
            errors: &mut errors,
            terminal,
            interactive: terminal,
        },
    );
    let errors = String::from_utf8(errors).expect("plain text");
    Done {
        status,
        output,
        errors,
    }
}

/// The same for arguments that are plain text.
pub fn fir(arguments: &[&str], input: &[u8]) -> Done {
    let arguments: Vec<OsString> = arguments.iter().map(OsString::from).collect();
    fir_of(&arguments, input)
}

/// A file of this content, in a folder of the test's own. It is written beside its place
/// and renamed, so that a test that runs at the same time never reads it in part.
pub fn file(test: &str, name: &str, content: &[u8]) -> String {
    let folder = Path::new(env!("CARGO_TARGET_TMPDIR")).join(test);
    fs::create_dir_all(&folder).expect("a folder is made");
    let path: PathBuf = folder.join(name);
    let beside = folder.join(format!(".{name}.{:?}", thread::current().id()));
    fs::write(&beside, content).expect("a file is written");
    fs::rename(&beside, &path).expect("the file is renamed");
    path.to_str().expect("a plain path").to_string()
}

/// Asserts what `fir check` prints for an image that is refused.
#[track_caller]
pub fn refused(image: &[u8], line: &str) {
    let done = fir(&["check", "-", "--no-mend"], image);
    assert_eq!(done.text(), format!("{line}\n"));
    assert_eq!((done.status, done.errors.as_str()), (1, ""));
}

/// The arguments of words, as the command line has them; none where the words
/// are those of no arguments.
pub fn arguments(words: &[i64]) -> Option<Vec<String>> {
    let mut rest = words;
    let mut arguments = Vec::new();
    while let Some((&head, after)) = rest.split_first() {
        if head == -1 {
            let (&integer, after) = after.split_first()?;
            arguments.push(integer.to_string());
            rest = after;
        } else {
            let length = usize::try_from(head).ok()?;
            let (items, after) = after.split_at_checked(length)?;
            arguments.push(format!("{items:?}"));
            rest = after;
        }
    }
    Some(arguments)
}

/// A script with the level portal behind the head of each version.
pub fn leveled(text: &str) -> String {
    let (mut leveled, mut due) = (String::new(), false);
    for line in text.lines() {
        let word = line.split_whitespace().next();
        if due && word != Some("registers") {
            leveled += "  level portal\n";
            due = false;
        }
        due |= word == Some("version");
        leveled += &format!("{line}\n");
    }
    leveled
}
