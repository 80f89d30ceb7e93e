//! Files that are written: none that is read, none twice, and none in part.

use crate::failure::Failure;
use std::collections::BTreeSet;
use std::ffi::{OsStr, OsString};
use std::fs::{self, File, OpenOptions};
use std::io::{self, ErrorKind, Write};
use std::os::unix::fs::MetadataExt;
use std::path::{Path, PathBuf};
use std::process;

/// What standard input is called in the file system.
const STANDARD_INPUT: &str = "/dev/stdin";

/// How many names beside a file are tried.
const NAMES: u32 = 1000;

/// What tells a file that is there from all others, whatever it is called: its device, and
/// its number there.
type Identity = (u64, u64);

/// That of a file with bytes that could be lost; a device or a pipe has none.
fn identity(path: &Path) -> Option<Identity> {
    let file = fs::metadata(path).ok().filter(|file| file.is_file())?;
    Some((file.dev(), file.ino()))
}

/// The files that a command reads, and those that it is to write.
pub struct Files {
    read: BTreeSet<Identity>,
    written: BTreeSet<Identity>,
    /// The names of the latter, in small letters: some file systems take no notice of case.
    names: BTreeSet<OsString>,
}

impl Files {
    /// Those of a command that reads these, standard input for `-`.
    pub fn read<'f>(files: impl IntoIterator<Item = &'f OsStr>) -> Files {
        let paths = files.into_iter().map(|file| match file == "-" {
            true => Path::new(STANDARD_INPUT),
            false => Path::new(file),
        });
        Files {
            read: paths.filter_map(identity).collect(),
            written: BTreeSet::new(),
            names: BTreeSet::new(),
        }
    }

    /// Asks that a file which is to be written is none that is read, and none that is to be
    /// written already.
    pub fn write(&mut self, out: &Path) -> Result<(), String> {
        let (name, identity) = (out.display(), identity(out));
        if identity.is_some_and(|out| self.read.contains(&out)) {
            return Err(format!("`{name}` would be written over, and is read"));
        }
        let new_file = identity.is_none_or(|out| self.written.insert(out));
        let new_name = self.names.insert(out.as_os_str().to_ascii_lowercase());
        match new_file && new_name {
            true => Ok(()),
            false => Err(format!("`{name}` would be written twice")),
        }
    }
}

/// Asks that a command which reads files does not write to one of them.
pub fn ask_apart<'f>(
    command: &'static str,
    files: impl IntoIterator<Item = &'f OsStr>,
    out: &OsStr,
) -> Result<(), Failure> {
    let apart = Files::read(files).write(Path::new(out));
    apart.map_err(|reason| Failure::Usage(Some(command), reason))
}

/// Writes a file, which is there as it was before or as a whole, never in part.
pub fn whole(path: &Path, bytes: &[u8]) -> Result<(), Failure> {
    let written = match fs::metadata(path) {
        Ok(there) if there.is_file() => replace(path, bytes),
        Ok(there) if !there.is_dir() => write_to_device(path, bytes),
        _ => place(path, bytes, |_| Ok(())),
    };
    written.map_err(|error| cannot(path, error))
}

/// The failure of a file or a folder that cannot be written.
pub fn cannot(path: &Path, error: io::Error) -> Failure {
    Failure::File(format!("{}: cannot be written: {error}", path.display()))
}

/// Writes to a device or a pipe, which has no place beside it.
fn write_to_device(path: &Path, bytes: &[u8]) -> io::Result<()> {
    OpenOptions::new().write(true).open(path)?.write_all(bytes)
}

/// Replaces the file that a name leads to, through links too; who may read it stays.
fn replace(path: &Path, bytes: &[u8]) -> io::Result<()> {
    let path = fs::canonicalize(path)?;
    let permissions = fs::metadata(&path)?.permissions();
    place(&path, bytes, |file| file.set_permissions(permissions))
}

/// Writes a file beside its place, through to the disk, and renames it.
fn place(
    path: &Path,
    bytes: &[u8],
    prepare: impl FnOnce(&File) -> io::Result<()>,
) -> io::Result<()> {
    let (mut file, beside) = open_beside(path)?;
    let written = prepare(&file)
        .and_then(|()| file.write_all(bytes))
        .and_then(|()| file.sync_all())
        .and_then(|()| fs::rename(&beside, path));
    if written.is_err() {
        let _ = fs::remove_file(&beside);
    }
    written
}

/// A new file in the same folder, and what it is called.
fn open_beside(path: &Path) -> io::Result<(File, PathBuf)> {
    for number in 0..NAMES {
        let beside = path.with_file_name(format!(".fir.{}.{number}", process::id()));
        match File::create_new(&beside) {
            Err(error) if error.kind() == ErrorKind::AlreadyExists => continue,
            opened => return opened.map(|file| (file, beside)),
        }
    }
    Err(ErrorKind::AlreadyExists.into())
}
