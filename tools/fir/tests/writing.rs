//! The commands that write a file: none writes over what it reads, by whatever names, and
//! none leaves a file in part.

mod support;

use cases::IDENTITY;
use std::fs::{self, File, OpenOptions, Permissions};
use std::io::Read;
use std::os::unix::fs::{symlink, FileTypeExt, PermissionsExt};
use std::path::Path;
use std::process::{Command, Output};
use support::{fir, put};

/// The text of the image that is read.
const TEXT: &str = "version 0.0(r0: int) -> int
  level portal
  block 0 quiet -> r0
";

/// The text of an image that one type mends.
const WRONG: &str = "version 0.0(r0: vector) -> int # a reading
  level portal
  block 0 quiet -> r0
";

/// A command that writes a file.
struct Writer {
    command: &'static str,
    /// The words behind the file that it reads.
    behind: &'static [&'static str],
    /// The option that names the file that it writes.
    option: &'static str,
    /// What it reads.
    content: &'static [u8],
}

impl Writer {
    /// Its command line.
    fn line<'w>(&self, file: &'w str, out: &'w str) -> Vec<&'w str> {
        [&[self.command, file], self.behind, &[self.option, out]].concat()
    }
}

const ASM: Writer = Writer {
    command: "asm",
    behind: &[],
    option: "-o",
    content: TEXT.as_bytes(),
};
const DIS: Writer = Writer {
    command: "dis",
    behind: &[],
    option: "-o",
    content: &IDENTITY,
};
const MOVE: Writer = Writer {
    command: "move",
    behind: &[],
    option: "-o",
    content: &IDENTITY,
};
const JOIN: Writer = Writer {
    command: "join",
    behind: &["../../examples/water.fir"],
    option: "-o",
    content: &IDENTITY,
};
const MEND: Writer = Writer {
    command: "mend",
    behind: &[],
    option: "-o",
    content: WRONG.as_bytes(),
};
const TRACE: Writer = Writer {
    command: "trace",
    behind: &["0.0", "7"],
    option: "--html",
    content: &IDENTITY,
};

/// All commands that write a file.
const WRITERS: [Writer; 6] = [ASM, DIS, MOVE, JOIN, MEND, TRACE];

/// An empty folder of the test's own, for one command.
fn folder(test: &str, writer: &Writer) -> String {
    let folder = Path::new(env!("CARGO_TARGET_TMPDIR"))
        .join("writing")
        .join(test)
        .join(writer.command);
    let _ = fs::remove_dir_all(&folder);
    fs::create_dir_all(&folder).expect("a folder is made");
    folder.to_str().expect("a plain path").to_string()
}

/// What a file holds.
#[track_caller]
fn held(path: &str) -> Vec<u8> {
    fs::read(path).expect("it is there")
}

/// How many files and links a folder has.
fn count(folder: &str) -> usize {
    fs::read_dir(folder).expect("a folder").count()
}

/// The program itself, begun by a line of the shell, with the words of its own behind.
fn shell(script: &str, words: &[&str]) -> Output {
    let program = env!("CARGO_BIN_EXE_fir");
    let mut shell = Command::new("sh");
    let done = shell.args(["-c", script, program]).args(words).output();
    done.expect("the shell starts")
}

#[test]
fn no_command_writes_over_what_it_reads() {
    for writer in &WRITERS {
        let Writer {
            command, content, ..
        } = writer;
        let folder = folder("over", writer);
        let file = put(&folder, "read", content);
        symlink("read", format!("{folder}/link")).expect("a link is made");
        symlink(".", format!("{folder}/around")).expect("a link is made");
        fs::hard_link(&file, format!("{folder}/second")).expect("a link is made");
        let names = ["read", "./read", "link", "second", "around/read"];
        for name in names.map(|name| format!("{folder}/{name}")) {
            for (read, out) in [(&file, &name), (&name, &file)] {
                let done = fir(&writer.line(read, out), b"");
                let reason = format!("`{out}` would be written over, and is read");
                let said = format!("fir {command}: {reason}; see `fir {command} --help`\n");
                assert_eq!((done.status, done.errors), (2, said));
            }
        }
        assert_eq!((held(&file), count(&folder)), (content.to_vec(), 4));
    }
}

#[test]
fn no_page_is_written_over_an_image_that_the_run_goes_on_under() {
    let folder = folder("then", &TRACE);
    let (file, next) = (
        put(&folder, "read", &IDENTITY),
        put(&folder, "next", &IDENTITY),
    );
    let then = format!("{next}@1");
    let words = [&TRACE.line(&file, &next)[..], &["--then", &then]].concat();
    let done = fir(&words, b"");
    let reason = format!("`{next}` would be written over, and is read");
    let said = format!("fir trace: {reason}; see `fir trace --help`\n");
    assert_eq!((done.status, done.errors), (2, said));
    assert_eq!(held(&next), IDENTITY);
}

#[test]
fn what_standard_input_comes_from_is_not_written_over() {
    for writer in &WRITERS {
        let content = writer.content;
        let folder = folder("input", writer);
        let file = put(&folder, "read", content);
        let script = format!("exec \"$0\" \"$@\" <'{file}'");
        let done = shell(&script, &writer.line("-", &file));
        assert_eq!(done.status.code(), Some(2));
        let said = String::from_utf8_lossy(&done.stderr).into_owned();
        assert!(
            said.contains("would be written over, and is read"),
            "{said}"
        );
        assert_eq!((held(&file), count(&folder)), (content.to_vec(), 1));
        let out = format!("{folder}/out");
        let done = shell(&script, &writer.line("-", &out));
        assert_eq!(done.status.code(), Some(0), "{done:?}");
        assert!(!held(&out).is_empty());
    }
}

#[test]
fn a_file_whose_writing_fails_is_as_it_was() {
    for writer in &WRITERS {
        let content = writer.content;
        let folder = folder("failing", writer);
        let (file, out) = (
            put(&folder, "read", content),
            put(&folder, "out", b"as it was"),
        );
        let none = "ulimit -f 0; trap '' XFSZ; exec \"$0\" \"$@\"";
        for out in [&out, &format!("{folder}/new")] {
            let done = shell(none, &writer.line(&file, out));
            assert_eq!(done.status.code(), Some(2), "{done:?}");
            let said = String::from_utf8_lossy(&done.stderr).into_owned();
            let begin = format!("fir: {out}: cannot be written: ");
            assert!(said.starts_with(&begin), "{said}");
        }
        assert_eq!((held(&out), count(&folder)), (b"as it was".to_vec(), 2));
    }
}

#[test]
fn a_text_whose_new_layout_cannot_be_written_is_as_it_was() {
    let folder = folder("layout", &ASM);
    let text = TEXT.replace("  ", " ").repeat(1000);
    let file = put(&folder, "read.fir", text.as_bytes());
    let none = "ulimit -f 0; trap '' XFSZ; exec \"$0\" \"$@\"";
    let done = shell(none, &["fmt", &file]);
    assert_eq!(done.status.code(), Some(2));
    let said = String::from_utf8_lossy(&done.stderr).into_owned();
    assert!(
        said.starts_with(&format!("fir: {file}: cannot be written: ")),
        "{said}"
    );
    assert_eq!((held(&file), count(&folder)), (text.into_bytes(), 1));
}

#[test]
fn a_text_is_laid_out_through_links_which_stay() {
    let folder = folder("layout_link", &ASM);
    let file = put(&folder, "read.fir", TEXT.replace("  ", " ").as_bytes());
    let link = format!("{folder}/link.fir");
    symlink("read.fir", &link).expect("a link is made");
    assert_eq!(fir(&["fmt", &link], b"").status, 0);
    assert_eq!(held(&file), TEXT.as_bytes());
    assert!(fs::symlink_metadata(&link).is_ok_and(|link| link.is_symlink()));
    assert_eq!(count(&folder), 2);
}

#[test]
fn another_file_is_replaced_through_links_and_who_may_read_it_stays() {
    for writer in &WRITERS {
        let content = writer.content;
        let folder = folder("replaced", writer);
        let file = put(&folder, "read", content);
        let (out, link) = (put(&folder, "out", &[7; 50_000]), format!("{folder}/link"));
        fs::set_permissions(&out, Permissions::from_mode(0o640)).expect("it is changed");
        symlink("out", &link).expect("a link is made");
        let done = fir(&writer.line(&file, &link), b"");
        assert_eq!((done.status, done.errors.as_str()), (0, ""));
        let new = format!("{folder}/new");
        assert_eq!(fir(&writer.line(&file, &new), b"").status, 0);
        assert_eq!(held(&out), held(&new));
        assert!(fs::symlink_metadata(&link).is_ok_and(|link| link.is_symlink()));
        let mode = fs::metadata(&out).expect("it is there").permissions();
        assert_eq!((mode.mode() & 0o777, count(&folder)), (0o640, 4));
    }
}

#[test]
fn a_pipe_is_written_to_and_stays_one() {
    for writer in &WRITERS {
        let content = writer.content;
        let folder = folder("pipe", writer);
        let (file, out) = (put(&folder, "read", content), format!("{folder}/out"));
        let made = Command::new("mkfifo").arg(&out).status();
        assert!(made.is_ok_and(|made| made.success()));
        let open = OpenOptions::new().read(true).write(true).open(&out);
        let mut pipe: File = open.expect("both ends are opened");
        assert_eq!(fir(&writer.line(&file, &out), b"").status, 0);
        assert!(fs::metadata(&out).is_ok_and(|out| out.file_type().is_fifo()));
        let new = format!("{folder}/new");
        assert_eq!(fir(&writer.line(&file, &new), b"").status, 0);
        let mut read = vec![0; held(&new).len()];
        pipe.read_exact(&mut read).expect("it was written");
        assert_eq!(read, held(&new));
    }
}

#[test]
fn a_folder_is_not_replaced() {
    for writer in &[ASM, DIS, MEND, TRACE] {
        let content = writer.content;
        let folder = folder("folder", writer);
        let (file, out) = (put(&folder, "read", content), format!("{folder}/out"));
        fs::create_dir(&out).expect("a folder is made");
        let done = fir(&writer.line(&file, &out), b"");
        let begin = format!("fir: {out}: cannot be written: ");
        assert!(done.errors.starts_with(&begin), "{done:?}");
        assert_eq!((done.status, count(&folder)), (2, 2));
    }
}

#[test]
fn bytes_do_not_get_the_name_of_a_text() {
    let folder = folder("named", &ASM);
    let (file, out) = (
        put(&folder, "read", TEXT.as_bytes()),
        format!("{folder}/out.fir"),
    );
    let done = fir(&ASM.line(&file, &out), b"");
    let reason = format!("`{out}` would hold an image's bytes, and .fir names texts");
    let said = format!("fir asm: {reason}; see `fir asm --help`\n");
    assert_eq!((done.status, done.errors), (2, said));
    assert_eq!(count(&folder), 1);
}

#[test]
fn images_whose_new_names_differ_in_case_alone_are_not_moved_together() {
    let folder = folder("case", &MOVE);
    for name in ["left", "right"] {
        fs::create_dir(format!("{folder}/{name}")).expect("a folder is made");
    }
    let (a, b) = (
        put(&folder, "left/image", &IDENTITY),
        put(&folder, "right/Image", &IDENTITY),
    );
    let out = format!("{folder}/out");
    let done = fir(&["move", &a, &b, "-o", &out], b"");
    let reason = format!("`{out}/Image` would be written twice");
    let said = format!("fir move: {reason}; see `fir move --help`\n");
    assert_eq!((done.status, done.errors), (2, said));
    assert!(!Path::new(&out).exists());
}
