//! The program `check`: it reads all of standard input and prints its report, nothing else.

use cases::{image, IDENTITY};
use differential::edges::{identities, EVERY_INSTRUCTION};
use generator::{accepted, accepted_of, damaged, Theme};
use reference::bounds::{MAX_IMAGE, VERSIONS};
use reference::{report, verdict, Verdict};
use std::fs::{self, File, OpenOptions};
use std::io::{ErrorKind, Write};
use std::os::fd::OwnedFd;
use std::os::unix::net::UnixStream;
use std::path::{Path, PathBuf};
use std::process::{Child, Command, Stdio};
use std::sync::atomic::{AtomicUsize, Ordering};
use std::thread;
use std::time::Duration;

/// The program.
const PROGRAM: &str = concat!(
    env!("CARGO_MANIFEST_DIR"),
    "/../../crates/fir_check/out/fir_check"
);

/// How many generated images of each sort the program is run on.
const IMAGES: u64 = 250;

/// Starts the program.
fn start(input: Stdio) -> Child {
    assert!(
        Path::new(PROGRAM).exists(),
        "the program is not there: {PROGRAM} is missing; run tools/dist/program.sh"
    );
    Command::new(PROGRAM)
        .stdin(input)
        .stdout(Stdio::piped())
        .stderr(Stdio::piped())
        .spawn()
        .expect("the program starts")
}

/// Asserts that a program that has all its input prints this text, and nothing else.
#[track_caller]
fn ends_with(program: Child, text: &str) {
    let output = program.wait_with_output().expect("the program ends");
    let printed = output.stdout.escape_ascii().to_string();
    assert_eq!(printed, text.as_bytes().escape_ascii().to_string());
    assert_eq!(output.stderr.escape_ascii().to_string(), "");
    assert_eq!(output.status.code(), Some(0));
}

/// Sends bytes to the program in pieces, with a pause between them; was all of it read?
fn send(program: &mut Child, input: &[u8], size: usize) -> bool {
    let mut pipe = program.stdin.take().expect("a pipe");
    for (index, piece) in input.chunks(size).enumerate() {
        if index > 0 {
            thread::sleep(Duration::from_millis(1));
        }
        match pipe.write_all(piece).and_then(|()| pipe.flush()) {
            Ok(()) => (),
            Err(error) if error.kind() == ErrorKind::BrokenPipe => return false,
            Err(error) => panic!("the input is sent: {error}"),
        }
    }
    true
}

/// Asserts what the program prints for bytes that are sent at once.
#[track_caller]
fn prints(input: &[u8], text: &str) {
    prints_in_pieces(input, input.len().max(1), text);
}

/// Asserts what the program prints for bytes that come in pieces, and that it
/// reads all of them.
#[track_caller]
fn prints_in_pieces(input: &[u8], size: usize, text: &str) {
    let mut program = start(Stdio::piped());
    let all = send(&mut program, input, size);
    assert!(all, "some input is not read");
    ends_with(program, text);
}

/// An accepted image of exactly the most bytes.
fn largest() -> Vec<u8> {
    let mut images = (0..).map(|seed| accepted_of(Theme::Large, seed));
    let largest = images.find(|image| image.len() == MAX_IMAGE);
    largest.expect("one of the seeds gives it")
}

/// The bytes, with zeros after them up to a length.
fn extended(bytes: &[u8], length: usize) -> Vec<u8> {
    let mut extended = bytes.to_vec();
    extended.resize(length, 0);
    extended
}

#[test]
fn image_i_prints_its_line_and_accepted_1() {
    prints(&IDENTITY, "0.0 1 0 0 0\naccepted 1\n");
}

#[test]
fn the_empty_input_is_refused_by_1() {
    prints(&[], "refused 1 at 0\n");
    ends_with(start(Stdio::null()), "refused 1 at 0\n");
}

#[test]
fn inputs_of_32768_bytes_are_images() {
    let largest = largest();
    assert!(matches!(verdict(&largest), Verdict::Accepted(_)));
    prints(&largest, &report(&largest));
    prints(&[0; 32_768], "refused 2 at 0\n");
    prints(&extended(&IDENTITY, 32_768), "refused 2 at 23\n");
}

#[test]
fn inputs_of_more_than_32768_bytes_are_refused_by_1() {
    let largest = largest();
    for length in [32_769, 65_535, 65_536, 65_536 + 23, 98_304, 100_000] {
        prints(&extended(&largest, length), "refused 1 at 0\n");
        prints(&extended(&IDENTITY, length), "refused 1 at 0\n");
    }
    prints(&largest.repeat(2), "refused 1 at 0\n");
}

#[test]
fn all_of_a_long_input_is_read() {
    prints(&[0; 1_000_000], "refused 1 at 0\n");
}

#[test]
fn accepted_images_print_their_versions() {
    for seed in 0..IMAGES {
        let image = accepted(seed);
        assert!(matches!(verdict(&image), Verdict::Accepted(_)));
        prints(&image, &report(&image));
    }
}

#[test]
fn refused_images_print_only_their_refusal() {
    let mut refused = 0;
    for seed in 0..IMAGES {
        let image = damaged(seed).bytes;
        let text = report(&image);
        refused += usize::from(text.starts_with("refused"));
        prints(&image, &text);
    }
    assert!(refused > 200, "{refused} refused images");
}

#[test]
fn images_with_64_versions_print_65_lines() {
    for image in [identities(VERSIONS), accepted_of(Theme::Many, 0)] {
        let text = report(&image);
        assert_eq!(text.lines().count(), VERSIONS + 1);
        prints(&image, &text);
    }
}

#[test]
fn input_in_single_bytes_is_put_together() {
    prints_in_pieces(&IDENTITY, 1, "0.0 1 0 0 0\naccepted 1\n");
    let image = image(EVERY_INSTRUCTION);
    prints_in_pieces(&image, 1, &report(&image));
    prints_in_pieces(&IDENTITY[..22], 1, "refused 2 at 16\n");
}

#[test]
fn input_in_pieces_is_put_together() {
    let largest = largest();
    for size in [511, 4096, 32_767] {
        prints_in_pieces(&largest, size, &report(&largest));
        let more = extended(&largest, 32_769);
        prints_in_pieces(&more, size, "refused 1 at 0\n");
    }
    prints_in_pieces(&[0; 100_000], 4099, "refused 1 at 0\n");
    for seed in 0..20 {
        let image = generator::any(seed);
        let size = 1 + image.len() / 7;
        prints_in_pieces(&image, size, &report(&image));
    }
}

#[test]
fn input_from_a_file_is_read() {
    let path = Path::new(env!("CARGO_TARGET_TMPDIR")).join("image");
    for image in [IDENTITY.to_vec(), largest(), extended(&IDENTITY, 100_000)] {
        fs::write(&path, &image).expect("the file is written");
        let file = File::open(&path).expect("the file is there");
        ends_with(start(file.into()), &report(&image));
    }
}

/// Asserts that the program prints no verdict, and says why.
#[track_caller]
fn says_nothing(program: Child) {
    let output = program.wait_with_output().expect("the program ends");
    assert_eq!(output.stdout.escape_ascii().to_string(), "");
    let complaint = String::from_utf8_lossy(&output.stderr).into_owned();
    assert_eq!(complaint, "check: standard input cannot be read\n");
}

/// A folder, whose bytes cannot be read.
fn folder() -> Stdio {
    let folder = File::open(env!("CARGO_MANIFEST_DIR"));
    folder.expect("a folder is opened").into()
}

#[test]
fn an_input_whose_reading_fails_gets_no_verdict() {
    says_nothing(start(folder()));
    // What came before the failure is an accepted image of one version; another was to follow.
    let (mut near, far) = UnixStream::pair().expect("a pair of sockets");
    far.set_nonblocking(true).expect("it need not wait");
    near.write_all(&IDENTITY).expect("it is sent");
    says_nothing(start(OwnedFd::from(far).into()));
}

/// A library that makes reads fail now and then.
fn interruptions() -> PathBuf {
    let source = Path::new(env!("CARGO_MANIFEST_DIR")).join("tests/interrupted.c");
    let library = Path::new(env!("CARGO_TARGET_TMPDIR")).join("interrupted.so");
    let mut compiler = Command::new("cc");
    let compiler = compiler.args(["-shared", "-fPIC", "-o"]).arg(&library);
    let compiled = compiler.arg(source).status();
    assert!(compiled.is_ok_and(|status| status.success()));
    library
}

#[test]
fn reads_that_are_interrupted_are_tried_again() {
    let library = interruptions();
    for image in [IDENTITY.to_vec(), image(EVERY_INSTRUCTION), vec![]] {
        let path = Path::new(env!("CARGO_TARGET_TMPDIR")).join("interrupted");
        fs::write(&path, &image).expect("the file is written");
        let mut program = Command::new(PROGRAM);
        let program = program.env("LD_PRELOAD", &library);
        let program = program.stdin(File::open(&path).expect("the file is there"));
        let program = program.stdout(Stdio::piped()).stderr(Stdio::piped());
        ends_with(
            program.spawn().expect("the program starts"),
            &report(&image),
        );
    }
}

/// The script `check` with the program beside it, as makers have it.
fn script(input: Stdio, output: Stdio) -> Child {
    let top = Path::new(env!("CARGO_MANIFEST_DIR")).join("../..");
    let folder = Path::new(env!("CARGO_TARGET_TMPDIR")).join("beside");
    fs::create_dir_all(&folder).expect("a folder is made");
    let number = SCRIPTS.fetch_add(1, Ordering::Relaxed);
    let folder = folder.join(number.to_string());
    let _ = fs::remove_dir_all(&folder);
    fs::create_dir(&folder).expect("a folder is made");
    fs::copy(top.join("check"), folder.join("check")).expect("the script is copied");
    fs::copy(PROGRAM, folder.join("fir_check")).expect("the program is copied");
    let mut script = Command::new(folder.join("check"));
    let script = script.stdin(input).stdout(output).stderr(Stdio::piped());
    script.spawn().expect("the script starts")
}

/// How many copies of the script were made.
static SCRIPTS: AtomicUsize = AtomicUsize::new(0);

#[test]
fn the_status_of_the_script_is_0_with_a_verdict_and_2_without_one() {
    for image in [&IDENTITY[..], &IDENTITY[..22], &[]] {
        let mut program = script(Stdio::piped(), Stdio::piped());
        assert!(send(&mut program, image, image.len().max(1)));
        ends_with(program, &report(image));
    }
    let silent = script(folder(), Stdio::piped());
    let output = silent.wait_with_output().expect("the script ends");
    assert_eq!((output.status.code(), output.stdout.len()), (Some(2), 0));
    assert_eq!(output.stderr, b"check: standard input cannot be read\n");
    let full = OpenOptions::new().write(true).open("/dev/full");
    let full = full.expect("a device that is always full");
    let unheard = script(Stdio::null(), full.into());
    let output = unheard.wait_with_output().expect("the script ends");
    assert_eq!(output.status.code(), Some(2));
    assert!(!output.stderr.is_empty());
}

#[test]
fn an_output_that_cannot_be_written_is_said() {
    let full = OpenOptions::new().write(true).open("/dev/full");
    let mut program = Command::new(PROGRAM);
    let program = program.stdin(Stdio::null()).stderr(Stdio::piped());
    let program = program.stdout(full.expect("a device that is always full"));
    let output = program.output().expect("the program ends");
    assert_eq!(output.stderr, b"check: standard output cannot be written\n");
}
