//! `fir join`: what is written, which numbers are said, which file a refusal names, and
//! that no image is lost.

mod support;

use cases::{exact, IDENTITY};
use std::fs;
use support::{did, fir, names, put};

/// One function that calls itself, and one that is searched for.
const CALLER: &str = "
version 0.0(r0: int) -> int
  level portal
  block 0 quiet -> r0
    r0 = dispatch 1(r0: int) -> int quiet
version 1.0(r0: int) -> int
  level portal
  block 0 quiet -> r0
    r0 = add r0, r0
";

/// Two versions of one function, the second of which calls the first.
const PAIR: &str = "
version 0.0(r0: int) -> int
  level portal
  block 0 quiet -> r0
version 0.1(r0: int) -> int
  level staff
  block 0 quiet -> r0
    r0 = call 0.0(r0)
";

/// A text whose CALL goes to a version of a higher level.
const UP: &str = "
version 0.0(r0: int) -> int
  level portal
  block 0 quiet -> r0
    r0 = call 0.1(r0)
version 0.1(r0: int) -> int
  level staff
  block 0 quiet -> r0
";

/// Why it is refused.
const WHY: &str =
    "refused by 18 at 23: CALL of 0.1 goes up: 0.0 is of level portal, and 0.1 of staff";

/// An empty folder of the test's own.
fn folder(test: &str) -> String {
    support::folder("joins", test)
}

/// What the reference makes of two images.
fn joined(first: &[u8], second: &[u8]) -> Vec<u8> {
    reference::join(first, second, 32_768).expect("they go together")
}

/// So many functions of one version each.
fn functions(count: u8) -> Vec<u8> {
    let function = |number| {
        let mut one = IDENTITY;
        one[4] = number;
        one
    };
    (0..count).flat_map(function).collect()
}

/// So many versions, four of each function, each with so many literals.
fn versions(count: u8, literals: u8) -> Vec<u8> {
    let version = |index: u8| {
        let head = [11, 0, 1, 0, index / 4, index % 4, 1, 1, 2, 1, 2];
        let (level, block) = ([5, 0, 3, 0, 0], [7, 0, 2, 0, 0, 0, literals]);
        let literals = [13, 0, 36, 0, 0, 5, 0, 0, 0, 0, 0, 0, 0].repeat(literals.into());
        [&head[..], &level, &block, &literals].concat()
    };
    (0..count).flat_map(version).collect()
}

#[test]
fn two_images_get_a_table_and_are_written() {
    let folder = folder("two");
    let first = put(&folder, "a", &exact(CALLER));
    let second = put(&folder, "second.fir", PAIR.as_bytes());
    let out = format!("{folder}/out");
    let done = fir(&["join", &first, &second, "-o", &out], b"");
    let width = second.len();
    let table = format!(
        "{:<width$}  its function  its number now\n\
         {first:<width$}             0               0\n\
         {first:<width$}             1               1\n\
         {second:<width$}             0               2\n\
         joined to {out}, 120 bytes, 3 functions, 4 versions\n",
        "file"
    );
    did(&done, 0, &table, "");
    let expected = joined(&exact(CALLER), &exact(PAIR));
    assert_eq!(fs::read(&out).expect("it is written"), expected);
    assert_eq!(names(&folder), ["a", "out", "second.fir"]);
    let run = |entry| fir(&["run", &out, entry, "21"], b"").text();
    assert_eq!(run("0.0"), "DONE 42 after 4 steps\n");
    assert_eq!(run("2.1"), "DONE 21 after 3 steps\n");
}

#[test]
fn several_are_joined_from_the_left_and_one_may_stand_twice() {
    let folder = folder("several");
    let one = put(&folder, "one.fir", PAIR.as_bytes());
    let out = format!("{folder}/out");
    let done = fir(&["join", &one, "-", &one, "-o", &out], CALLER.as_bytes());
    let lines: Vec<String> = done.text().lines().map(String::from).collect();
    let words = |line: &String| line.rsplit(' ').next().unwrap_or_default().to_string();
    assert_eq!(lines.len(), 6, "{lines:?}");
    assert!(lines[2].starts_with("standard input"), "{lines:?}");
    assert_eq!(
        lines[1..5].iter().map(words).collect::<Vec<_>>(),
        ["0", "1", "2", "3"]
    );
    let (pair, caller) = (exact(PAIR), exact(CALLER));
    let expected = joined(&joined(&pair, &caller), &pair);
    assert_eq!(fs::read(&out).expect("it is written"), expected);
}

#[test]
fn a_name_that_ends_in_fir_gets_a_text() {
    let folder = folder("text");
    let first = put(&folder, "a.fir", CALLER.as_bytes());
    let second = put(&folder, "b", &exact(PAIR));
    let out = format!("{folder}/out.fir");
    assert_eq!(fir(&["join", &first, &second, "-o", &out], b"").status, 0);
    let text = fs::read_to_string(&out).expect("a text is written");
    assert!(text.contains("version 2.1(r0: int) -> int\n"), "{text}");
    assert!(text.contains("r0 = call 2.0(r0)\n"), "{text}");
    let expected = joined(&exact(CALLER), &exact(PAIR));
    assert_eq!(text::assemble(&text).expect("it assembles"), expected);
}

#[test]
fn a_refused_image_is_named_with_its_place_and_nothing_is_written() {
    let folder = folder("refused");
    let good = put(&folder, "good", &IDENTITY);
    let text = put(&folder, "up.fir", UP.as_bytes());
    let image = put(&folder, "up", &exact(UP));
    let out = format!("{folder}/out");
    for (files, line) in [
        ([&good, &text], format!("{text}:5:5: {WHY}\n")),
        ([&text, &good], format!("{text}:5:5: {WHY}\n")),
        ([&good, &image], format!("{image}: {WHY}\n")),
        ([&image, &text], format!("{image}: {WHY}\n")),
    ] {
        did(
            &fir(&["join", files[0], files[1], "-o", &out], b""),
            1,
            &line,
            "",
        );
    }
    let third = fir(&["join", &good, &good, &text, "-o", &out], b"");
    did(&third, 1, &format!("{text}:5:5: {WHY}\n"), "");
    let wrong = put(&folder, "wrong.fir", b"version 0.0(\n");
    let done = fir(&["join", &good, &wrong, "-o", &out], b"");
    assert!(done.errors.starts_with(&format!("{wrong}:1:")), "{done:?}");
    assert_eq!((done.status, done.output.len()), (1, 0));
    assert_eq!(names(&folder), ["good", "up", "up.fir", "wrong.fir"]);
}

#[test]
fn question23_says_which_bound_it_is() {
    let folder = folder("bounds");
    let image = |name, bytes: Vec<u8>| put(&folder, name, &bytes);
    let (some, more) = (image("some", functions(20)), image("more", functions(13)));
    let (few, many) = (
        image("few", versions(24, 0)),
        image("many", versions(41, 0)),
    );
    let long = image("long", versions(26, 48));
    let out = format!("{folder}/out");
    for ([a, b], together) in [
        ([&some, &more], "33 functions, and 32 are the most"),
        ([&few, &many], "65 versions, and 64 are the most"),
        ([&long, &long], "33644 bytes, and 32768 are the most"),
    ] {
        let words = format!("together they would have {together}");
        let line = format!("{a} and {b}: refused by 23 at 0: {words}\n");
        did(&fir(&["join", a, b, "-o", &out], b""), 1, &line, "");
    }
    assert_eq!(names(&folder), ["few", "long", "many", "more", "some"]);
}

#[test]
fn several_bounds_and_files_are_all_named() {
    let folder = folder("several_bounds");
    let (long, some) = (
        put(&folder, "long", &versions(32, 37)),
        put(&folder, "some", &functions(30)),
    );
    let out = format!("{folder}/out");
    let done = fir(&["join", &long, &long, &some, "-o", &out], b"");
    let words = "together they would have 32946 bytes, and 32768 are the most; \
                 46 functions, and 32 are the most; 94 versions, and 64 are the most";
    let line = format!("{long}, {long} and {some}: refused by 23 at 0: {words}\n");
    did(&done, 1, &line, "");
    assert_eq!(names(&folder), ["long", "some"]);
}

#[test]
fn json_has_the_numbers_or_the_refusal() {
    let folder = folder("json");
    let (good, text) = (
        put(&folder, "good", &exact(PAIR)),
        put(&folder, "up.fir", UP.as_bytes()),
    );
    let out = format!("{folder}/out");
    let number = |number| format!(r#"{{"file":"{good}","function":0,"number":{number}}}"#);
    let object = format!(
        r#"{{"joined":true,"out":"{out}","bytes":110,"functions":2,"versions":4,"numbers":[{},{}]}}"#,
        number(0),
        number(1)
    );
    let json = |files: &[&str]| fir(&[&["join", "-o", &out, "--json"], files].concat(), b"");
    did(&json(&[&good, &good]), 0, &format!("{object}\n"), "");
    let refused = format!(
        r#"{{"joined":false,"file":"{text}","question":18,"offset":23,"line":5,"column":5,"words":"#
    );
    let done = json(&[&good, &text]);
    assert!(done.text().starts_with(&refused), "{done:?}");
    assert_eq!(done.status, 1);
    let some = put(&folder, "some", &functions(32));
    let object = format!(
        r#"{{"joined":false,"files":["{good}","{some}"],"question":23,"offset":0,"words":"together they would have 33 functions, and 32 are the most"}}"#
    );
    did(&json(&[&good, &some]), 1, &format!("{object}\n"), "");
    let missing = format!("{folder}/missing");
    let done = json(&[&good, &missing]);
    let failed =
        format!(r#"{{"joined":false,"file":"{missing}","error":"{missing}: cannot be read: "#);
    assert!(done.text().starts_with(&failed), "{done:?}");
    assert_eq!((done.status, done.errors.as_str()), (2, ""));
    let nowhere = format!("{folder}/no/out");
    let done = fir(&["join", &good, &good, "-o", &nowhere, "--json"], b"");
    let failed =
        format!(r#"{{"joined":false,"file":"{nowhere}","error":"{nowhere}: cannot be written: "#);
    assert!(done.text().starts_with(&failed), "{done:?}");
    assert_eq!((done.status, done.errors.as_str()), (2, ""));
}

#[test]
fn no_image_is_written_over() {
    let folder = folder("over");
    let (a, b) = (
        put(&folder, "a", &IDENTITY),
        put(&folder, "b", &exact(PAIR)),
    );
    let (link, hard) = (format!("{folder}/link"), format!("{folder}/hard"));
    std::os::unix::fs::symlink(&b, &link).expect("a link is made");
    fs::hard_link(&a, &hard).expect("a link is made");
    let around = format!("{folder}/./b");
    for out in [&a, &b, &around, &link, &hard] {
        let reason = format!("`{out}` would be written over, and is read");
        let line = format!("fir join: {reason}; see `fir join --help`\n");
        did(&fir(&["join", &a, &b, "-o", out], b""), 2, "", &line);
    }
    assert_eq!(fs::read(&a).expect("it is there"), IDENTITY);
    assert_eq!(fs::read(&b).expect("it is there"), exact(PAIR));
    assert_eq!(names(&folder), ["a", "b", "hard", "link"]);
}

#[test]
fn another_file_of_the_name_is_replaced_and_none_is_left_in_part() {
    let folder = folder("replaced");
    let one = put(&folder, "one", &IDENTITY);
    let out = put(&folder, "out", &[7; 5000]);
    assert_eq!(fir(&["join", &one, &one, "-o", &out], b"").status, 0);
    assert_eq!(fs::read(&out).expect("it is there"), functions(2));
    let nowhere = format!("{folder}/no/out");
    let done = fir(&["join", &one, &one, "-o", &nowhere], b"");
    let said = format!("fir: {nowhere}: cannot be written: ");
    assert!(done.errors.starts_with(&said), "{done:?}");
    assert_eq!((done.status, done.output.len()), (2, 0));
    let done = fir(&["join", &one, &one, "-o", &folder], b"");
    assert_eq!((done.status, done.output.len()), (2, 0), "{done:?}");
    assert_eq!(names(&folder), ["one", "out"]);
}

#[test]
fn the_command_line_names_two_images_and_a_place() {
    let folder = folder("line");
    let image = put(&folder, "image", &IDENTITY);
    for (words, reason) in [
        (vec!["join", "-o", "x"], "no file is named"),
        (
            vec!["join", &image, "-o", "x"],
            "a second image is missing: two or more are joined",
        ),
        (
            vec!["join", &image, &image],
            "-o is missing: the file to write to",
        ),
        (
            vec!["join", "-", "-", "-o", "x"],
            "standard input is named twice",
        ),
        (
            vec!["join", &image, &image, "--to", "x", "-o", "x"],
            "`--to` is no option",
        ),
    ] {
        let line = format!("fir join: {reason}; see `fir join --help`\n");
        did(&fir(&words, b""), 2, "", &line);
    }
}
