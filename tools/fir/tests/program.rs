//! The program itself: its streams, its exit status, and readers that go away.

mod support;

use cases::image;
use std::fs::OpenOptions;
use std::io::{Read, Write};
use std::process::{Command, Output, Stdio};
use support::{file, STEPS};

/// The program with arguments.
fn program(arguments: &[&str]) -> Command {
    let mut program = Command::new(env!("CARGO_BIN_EXE_fir"));
    program.args(arguments).stdin(Stdio::null());
    program
}

/// What the program did.
fn output(arguments: &[&str]) -> Output {
    program(arguments).output().expect("the program starts")
}

/// A call tree of very many steps.
const LONG: &str = "
version 0.0(r0: int) -> int
  level portal
  block 0 quiet -> r0
    r0 = call 1.0(r0)
    r0 = call 1.0(r0)
version 1.0(r0: int) -> int
  level portal
  block 0 quiet -> r0
    r0 = call 2.0(r0)
    r0 = call 2.0(r0)
version 2.0(r0: int) -> int
  level portal
  block 0 quiet -> r0
    r0 = call 3.0(r0)
    r0 = call 3.0(r0)
version 3.0(r0: int) -> int
  registers r1: int
  level portal
  block 0 quiet -> r0
    r1 = lit 1
    r0 = add r0, r1
";

#[test]
fn the_exit_status_says_how_it_went() {
    let long = file("program", "long.fir", LONG.as_bytes());
    let done = output(&["run", &long, "0.0", "0"]);
    assert_eq!(done.stdout, b"DONE 8 after 45 steps\n");
    assert_eq!((done.status.code(), &done.stderr[..]), (Some(0), &b""[..]));
    let stopped = output(&["run", &long, "0.0", "0", "--budget", "44"]);
    assert!(stopped.stdout.starts_with(b"STEPS after 44 steps\n"));
    assert_eq!(stopped.status.code(), Some(i32::from(STEPS)));
    let refused = output(&["run", &long, "9.0"]);
    assert!(refused.stdout.starts_with(b"refused by 11 at 0: "));
    assert_eq!(refused.status.code(), Some(1));
    let wrong = output(&["run"]);
    assert_eq!(
        (wrong.status.code(), &wrong.stdout[..]),
        (Some(2), &b""[..])
    );
    assert!(wrong.stderr.starts_with(b"fir run: "));
    assert_eq!(output(&["--help"]).status.code(), Some(0));
}

#[test]
fn an_image_can_come_from_standard_input() {
    let mut child = program(&["check", "-"])
        .stdin(Stdio::piped())
        .stdout(Stdio::piped())
        .spawn()
        .expect("the program starts");
    let mut input = child.stdin.take().expect("a pipe");
    input.write_all(&image(LONG)).expect("the image is sent");
    drop(input);
    let done = child.wait_with_output().expect("the program ends");
    assert!(done.stdout.ends_with(b"accepted 4\n"));
    assert_eq!(done.status.code(), Some(0));
}

/// Runs the program, reads a little of what it prints, and goes away; its
/// status and what it complains of.
fn abandoned(arguments: &[&str], read: usize) -> (Option<i32>, Vec<u8>) {
    let mut child = program(arguments)
        .stdout(Stdio::piped())
        .stderr(Stdio::piped())
        .spawn()
        .expect("the program starts");
    let mut output = child.stdout.take().expect("a pipe");
    let mut first = vec![0; read];
    output.read_exact(&mut first).expect("something is printed");
    drop(output);
    let done = child.wait_with_output().expect("the program ends");
    (done.status.code(), done.stderr)
}

#[test]
fn a_reader_that_goes_away_ends_it_quietly() {
    // 32 calls of 48 steps each print more than a pipe holds.
    let calls = "r0 = call 1.0(r0)\n".repeat(32);
    let moves = "r0 = move r0\n".repeat(48);
    let tree = format!(
        "version 0.0(r0: int) -> int\nlevel portal\nblock 0 quiet -> r0\n{calls}
         version 1.0(r0: int) -> int\nlevel portal\nblock 0 quiet -> r0\n{moves}"
    );
    let file = file("program", "tree.fir", tree.as_bytes());
    let (status, errors) = abandoned(&["trace", &file, "0.0", "1"], 10);
    assert_eq!(errors, b"");
    assert_eq!(status, Some(1), "a trace that was cut short");
    let image = support::file("program", "tree.bin", &[7, 0, 2, 0, 9, 9, 9].repeat(20_000));
    let (status, errors) = abandoned(&["dis", &image], 10);
    assert_eq!((status, &errors[..]), (Some(1), &b""[..]));
}

#[test]
fn an_output_that_is_full_is_named() {
    let full = OpenOptions::new().write(true).open("/dev/full");
    let full = full.expect("a device that is always full");
    let done = program(&["--help"]).stdout(full).output();
    let done = done.expect("the program starts");
    assert_eq!(done.status.code(), Some(2));
    assert!(done
        .stderr
        .starts_with(b"fir: the output cannot be written: "));
}
