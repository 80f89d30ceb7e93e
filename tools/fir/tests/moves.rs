//! `fir move` and `fir check --form`: what is written, what is said, and that no
//! image is lost.

mod support;

use cases::image;
use std::ffi::OsString;
use std::fs;
use support::{did, file, fir, fir_on, names, put};

/// Gives a literal of 32 bits, a negative one.
const MINUS: &str = "
version 0.0() -> int
  registers r0: int
  level portal
  block 0 quiet -> r0
    r0 = lit -3
";

/// The same with the first literal that does not fit 32 bits, behind one that does.
const LARGE: &str = "
version 0.0() -> int
  registers r0: int
  level portal
  block 0 quiet -> r0
    r0 = lit 2147483647
    r0 = lit 2147483648
";

/// The image of `MINUS` in the form of 32 bits.
const OLD: [u8; 32] = [
    11, 0, 1, 0, 0, 0, 0, 1, 2, 1, 2, 5, 0, 3, 0, 0, 7, 0, 2, 0, 0, 0, 1, 9, 0, 16, 0, 0, 0xFD,
    255, 255, 255,
];

/// An image of the form of 32 bits whose result register is never assigned.
const UNASSIGNED: [u8; 34] = [
    13, 0, 1, 0, 0, 0, 0, 3, 2, 1, 2, 2, 2, 5, 0, 3, 0, 0, 7, 0, 2, 0, 0, 1, 1, 9, 0, 16, 0, 0, 5,
    0, 0, 0,
];

/// Why it is refused.
const FLOW: &str = "refused by 10 at 0: in VERSION 0.0, r1 is read by the end of BLOCK 0 at 18 \
                    before it is assigned";

/// 64 versions of 39 literals each: 33,920 bytes in the form of 64 bits.
fn too_long() -> Vec<u8> {
    let version = |index: u8| {
        let head = [11, 0, 1, 0, index / 4, index % 4, 0, 1, 2, 1, 2];
        let (level, block) = ([5, 0, 3, 0, 0], [7, 0, 2, 0, 0, 0, 39]);
        [
            &head[..],
            &level,
            &block,
            &[9, 0, 16, 0, 0, 1, 0, 0, 0].repeat(39),
        ]
        .concat()
    };
    (0..64).flat_map(version).collect()
}

/// An empty folder of the test's own.
fn folder(test: &str) -> String {
    support::folder("moves", test)
}

#[test]
fn check_asks_the_questions_of_a_form() {
    let (old, new) = (OLD, image(MINUS));
    let accepted = "0.0 0 1 0 0\naccepted 1\n";
    did(&fir(&["check", "-", "--form", "32"], &old), 0, accepted, "");
    did(&fir(&["check", "--form", "64", "-"], &new), 0, accepted, "");
    did(&fir(&["check", "-"], &new), 0, accepted, "");
    let line =
        "refused by 3 at 23: 16 was the kind of LIT with 32 bits; now LIT is kind 36, and `fir move` moves the image\n";
    did(&fir(&["check", "-"], &old), 1, line, "");
    let line = "refused by 3 at 23: 36 is the kind of LIT with 64 bits; in the form of 32 bits LIT is kind 16\n";
    did(&fir(&["check", "-", "--form", "32"], &new), 1, line, "");
}

#[test]
fn refusals_in_the_form_of_32_bits_have_words_too() {
    let said = |image: &[u8]| fir(&["check", "-", "--form", "32"], image).text();
    let long = [&OLD[..23], &[10, 0, 16, 0, 0, 5, 0, 0, 0, 0]].concat();
    assert_eq!(
        said(&long),
        "refused by 3 at 23: LIT has 9 bytes, this one 10\n"
    );
    assert_eq!(said(&UNASSIGNED), format!("{FLOW}\n"));
    let mut missing = OLD;
    missing[22] = 2;
    let line = said(&missing);
    let due = "the image ends where 1 more instruction of block 0 of 0.0 is due";
    assert_eq!(line, format!("refused by 4 at 32: {due}\n"));
}

#[test]
fn a_form_is_32_or_64() {
    for (command, option, out) in [("check", "--form", &[][..]), ("move", "--to", &["-o", "x"])] {
        let done = fir(&[&[command, "-", option, "33"], out].concat(), b"");
        let reason = format!("{option} is 32 or 64, not `33`");
        let line = format!("fir {command}: {reason}; see `fir {command} --help`\n");
        did(&done, 2, "", &line);
    }
}

#[test]
fn an_image_goes_there_and_back() {
    let folder = folder("there_and_back");
    let old = put(&folder, "old.bin", &OLD);
    let (new, back) = (format!("{folder}/new.bin"), format!("{folder}/back.bin"));
    let line = format!("{old}: moved to {new}, 36 bytes\n");
    did(&fir(&["move", &old, "-o", &new], b""), 0, &line, "");
    assert_eq!(fs::read(&new).expect("it is written"), image(MINUS));
    let line = format!("{new}: moved to {back}, 32 bytes\n");
    let done = fir(&["move", &new, "--to", "32", "-o", &back], b"");
    did(&done, 0, &line, "");
    assert_eq!(fs::read(&back).expect("it is written"), OLD);
    assert_eq!(names(&folder), ["back.bin", "new.bin", "old.bin"]);
}

#[test]
fn standard_input_and_texts_are_moved_too() {
    let folder = folder("input");
    let out = format!("{folder}/out");
    let done = fir(&["move", "-", "-o", &out, "--to", "64"], &OLD);
    did(
        &done,
        0,
        &format!("standard input: moved to {out}, 36 bytes\n"),
        "",
    );
    let text = put(&folder, "minus.fir", MINUS.as_bytes());
    let done = fir(&["move", &text, "-o", &out, "--to", "32"], b"");
    did(&done, 0, &format!("{text}: moved to {out}, 32 bytes\n"), "");
    assert_eq!(fs::read(&out).expect("it is written"), OLD);
    let done = fir(&["move", "-", "-o", &folder], &OLD);
    let reason = "standard input has no name in a folder; see `fir move --help`";
    did(&done, 2, "", &format!("fir move: {reason}\n"));
}

#[test]
fn refusals_have_words_and_write_nothing() {
    let folder = folder("refusals");
    let out = format!("{folder}/out");
    let text = put(&folder, "large.fir", LARGE.as_bytes());
    let done = fir(&["move", &text, "-o", &out, "--to", "32"], b"");
    let line =
        "refused by 16 at 36: LIT has 2147483648, and 32 bits hold -2147483648 to 2147483647";
    did(&done, 1, &format!("{text}:7:5: {line}\n"), "");
    let long = put(&folder, "long", &too_long());
    let line = "refused by 17 at 0: moved it would have 33920 bytes, and 32,768 are the most";
    did(
        &fir(&["move", &long, "-o", &out], b""),
        1,
        &format!("{long}: {line}\n"),
        "",
    );
    let done = fir(&["move", "-", "-o", &out], &UNASSIGNED);
    assert_eq!(done.text(), format!("standard input: {FLOW}\n"));
    let done = fir(&["move", "-", "-o", &out], &image(MINUS));
    let line = "refused by 3 at 23: LIT is of kind 36 and has 64 bits already";
    did(&done, 1, &format!("standard input: {line}\n"), "");
    let done = fir(&["move", "-", "-o", &out, "--to", "32"], &OLD);
    let line = "refused by 3 at 23: LIT is of kind 16 and has 32 bits already";
    did(&done, 1, &format!("standard input: {line}\n"), "");
    assert_eq!(names(&folder), ["large.fir", "long"]);
}

#[test]
fn many_images_get_a_line_each_and_a_count() {
    let folder = folder("many");
    let good = put(&folder, "good", &OLD);
    let bad = put(&folder, "bad", &UNASSIGNED);
    let other = put(&folder, "other", &cases::IDENTITY);
    let missing = format!("{folder}/missing");
    let out = format!("{folder}/deep/out");
    let done = fir(&["move", &good, &bad, &missing, &other, "-o", &out], b"");
    let lines: Vec<String> = done.text().lines().map(String::from).collect();
    assert_eq!(lines.len(), 4);
    assert_eq!(lines[0], format!("{good}: moved to {out}/good, 36 bytes"));
    assert!(lines[1] == format!("{bad}: {FLOW}"));
    assert_eq!(lines[2], format!("{other}: moved to {out}/other, 23 bytes"));
    assert_eq!(lines[3], "2 moved, 1 refused, 1 not read or written");
    assert!(done
        .errors
        .starts_with(&format!("fir: {missing}: cannot be read: ")));
    assert_eq!(done.status, 2);
    assert_eq!(names(&out), ["good", "other"]);
    assert_eq!(
        fs::read(format!("{out}/good")).expect("it is there"),
        image(MINUS)
    );
    let done = fir(&["move", &good, &bad, "-o", &out], b"");
    assert!(done.text().ends_with("\n1 moved, 1 refused\n"));
    assert_eq!(done.status, 1);
    let done = fir(&["move", &good, &other, "-o", &out], b"");
    assert!(done.text().ends_with("\n2 moved, 0 refused\n"));
    assert_eq!((done.status, done.errors.as_str()), (0, ""));
}

#[test]
fn no_image_is_written_over() {
    let folder = folder("over");
    let (left, right) = (format!("{folder}/left"), format!("{folder}/right"));
    for folder in [&left, &right] {
        fs::create_dir_all(folder).expect("a folder is made");
    }
    let (a, b) = (put(&left, "image", &OLD), put(&right, "image", &OLD));
    let other = put(&right, "other", &OLD);
    let link = format!("{folder}/link");
    std::os::unix::fs::symlink(&a, &link).expect("a link is made");
    let around = format!("{left}/../left/image");
    let over = "would be written over, and is read";
    let twice = "would be written twice";
    for (images, out, path, reason) in [
        (vec![&a], &a, &a, over),
        (vec![&a], &around, &around, over),
        (vec![&a], &link, &link, over),
        (vec![&link], &a, &a, over),
        (vec![&a], &left, &a, over),
        (vec![&a, &b], &right, &b, over),
        (vec![&a, &b], &folder, &format!("{folder}/image"), twice),
        (vec![&other, &a, &b], &left, &a, over),
    ] {
        let mut words = vec!["move"];
        words.extend(images.iter().map(|image| image.as_str()));
        words.extend(["-o", out]);
        let line = format!("fir move: `{path}` {reason}; see `fir move --help`\n");
        did(&fir(&words, b""), 2, "", &line);
    }
    for image in [&a, &b, &other] {
        assert_eq!(fs::read(image).expect("it is there"), OLD);
    }
    assert_eq!(names(&left), ["image"]);
    assert_eq!(names(&right), ["image", "other"]);
    assert_eq!(names(&folder), ["left", "link", "right"]);
}

#[test]
fn a_file_that_cannot_be_written_is_said_and_leaves_nothing() {
    let folder = folder("unwritten");
    let old = put(&folder, "old", &OLD);
    let out = format!("{folder}/no/out");
    let done = fir(&["move", &old, "-o", &out], b"");
    let said = done
        .errors
        .starts_with(&format!("fir: {out}: cannot be written: "));
    assert!(said && done.status == 2, "{done:?}");
    let into = format!("{folder}/into");
    fs::create_dir_all(format!("{into}/old")).expect("a folder is made");
    let done = fir(&["move", &old, "-o", &into], b"");
    assert!(
        done.errors.contains("/into/old: cannot be written: "),
        "{done:?}"
    );
    assert_eq!(names(&into), ["old"]);
    let done = fir(&["move", &old, &into, "-o", &old], b"");
    assert_eq!((done.text().as_str(), done.status), ("", 2));
    assert_eq!(names(&folder), ["into", "old"]);
}

#[test]
fn another_file_of_the_name_is_replaced() {
    let folder = folder("replaced");
    let old = put(&folder, "old", &OLD);
    let out = put(&folder, "out", &[7; 5000]);
    assert_eq!(fir(&["move", &old, "-o", &out], b"").status, 0);
    assert_eq!(fs::read(&out).expect("it is there"), image(MINUS));
}

#[test]
fn bytes_do_not_get_the_name_of_a_text() {
    let folder = folder("named");
    let text = put(&folder, "minus.fir", MINUS.as_bytes());
    let out = format!("{folder}/out.fir");
    for (out, path) in [(&out, &out), (&folder, &text)] {
        let reason = format!("`{path}` would hold an image's bytes, and .fir names texts");
        let line = format!("fir move: {reason}; see `fir move --help`\n");
        let words = ["move", &text, "-o", out, "--to", "32"];
        did(&fir(&words, b""), 2, "", &line);
    }
    assert_eq!(names(&folder), ["minus.fir"]);
}

#[test]
fn the_command_line_names_images_and_a_place() {
    let image = file("moves", "image", &OLD);
    for (words, reason) in [
        (vec!["move", "-o", "x"], "no file is named"),
        (
            vec!["move", &image],
            "-o is missing: the file or the folder to write to",
        ),
        (
            vec!["move", &image, "-", "-o", "x"],
            "standard input is named beside other images",
        ),
        (
            vec!["move", &image, "--all", "-o", "x"],
            "`--all` is no option",
        ),
    ] {
        let line = format!("fir move: {reason}; see `fir move --help`\n");
        did(&fir(&words, b""), 2, "", &line);
    }
}

#[test]
fn a_terminal_shows_how_far_it_is() {
    let folder = folder("terminal");
    let (a, b) = (put(&folder, "a", &OLD), put(&folder, "b", &OLD));
    let out = format!("{folder}/out");
    let words = ["move", &a, &b, "-o", &out].map(OsString::from);
    let done = fir_on(&words, b"", true);
    let shown = "\r\x1b[Kmoving 1 of 2\r\x1b[K\r\x1b[Kmoving 2 of 2\r\x1b[K";
    assert_eq!((done.errors.as_str(), done.status), (shown, 0));
    assert_eq!(done.text().lines().count(), 3);
    let single = ["move", &a, "-o", &out].map(OsString::from);
    assert_eq!(fir_on(&single, b"", true).errors, "");
}
