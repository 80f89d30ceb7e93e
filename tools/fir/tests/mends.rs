//! Mends beside refusals, and `fir mend`: which type is offered, in which words and at which
//! place of a text; that an editor can apply the object; that of a text nothing else changes.

mod support;

use cases::{exact, IDENTITY};
use generator::to_mend;
use library::Mended;
use std::fs;
use support::json::Value;
use support::{did, file, fir};

/// How many generated images are mended as texts.
const IMAGES: u64 = 1_500;

/// Adds two degrees, which stand in a vector by mistake. There are a comment, a tab, and
/// spaces that nothing needs.
const WRONG: &str = "# Raises the set point.
version 0.0(r0: int) -> int
\tregisters r1 :  vector  # two degrees, écrit r1: vector
  level portal
  block 0 quiet -> r0
    r1 = lit 2
    r0 = add r0, r1
";

/// Why it is refused, and its mend.
const WHY: &str = "refused by 8 at 24: LIT gives an integer, r1 is a shared vector";
const MEND: &str = "mend: r1 of 0.0: int in place of vector";

/// What `fir check` offers for a text: its last line, without the file's name.
#[track_caller]
fn offered(text: &str) -> String {
    let file = file("mends", "offered.fir", text.as_bytes());
    let done = fir(&["check", &file], b"");
    assert_eq!((done.status, done.errors.as_str()), (1, ""));
    let text = done.text();
    let last = text.lines().last().expect("a line");
    last.replace(&format!("{file}:"), "")
}

/// Scripts of one version with one wrong type, and what is offered: the registers, the
/// return type, the instructions, and the offer.
const SCRIPTS: [(&str, &str, &str, &str); 8] = [
    (
        "r0: int, r1: vector",
        "int",
        "r1 = lit 2\nr0 = add r0, r1",
        "r1 of 0.0: int in place of vector",
    ),
    (
        "r0: int, r1: int, r2: vector",
        "int",
        "r2 = vec [r0]\nr1 = lit 0\nset r2[r1] = r0",
        "r2 of 0.0: own vector in place of vector",
    ),
    (
        "r0: value, r1: int",
        "int",
        "r1 = lit 1\nr0 = add r0, r1",
        "parameter r0 of 0.0: int in place of value",
    ),
    (
        "r0: int, r1: own int",
        "int",
        "r1 = add r0, r0\nr0 = add r1, r1",
        "r1 of 0.0: int in place of own int",
    ),
    (
        "r0: vector, r1: borrow vector, r2: int",
        "vector",
        "r1 = dup r0\nr2 = len r1",
        "r1 of 0.0: vector in place of borrow vector; own vector would do too",
    ),
    (
        "r0: int, r1: int",
        "int",
        "store x0 = r0\nr1 = named x0\nr0 = cast r1",
        "r1 of 0.0: any in place of int; value would do too",
    ),
    (
        "r0: int, r1: vector",
        "int",
        "r1 = lit 2",
        "r1 of 0.0: any in place of vector; value and int would do too",
    ),
    (
        "r0: int, r1: int, r2: int",
        "int",
        "r1 = vec [r0]\nr2 = len r1",
        "r1 of 0.0: vector in place of int; own vector would do too",
    ),
];

/// The text of a script with one parameter.
fn script(registers: &str, returns: &str, instructions: &str) -> String {
    let (parameter, others) = registers.split_once(", ").expect("two registers");
    format!(
        "version 0.0({parameter}) -> {returns}\nregisters {others}\nlevel portal\n\
         block 0 quiet -> r0\n{instructions}\n"
    )
}

#[test]
fn one_wrong_type_is_mended_as_a_person_would() {
    for (registers, returns, instructions, expected) in SCRIPTS {
        let said = offered(&script(registers, returns, instructions));
        let said = said.split_once("mend: ").map(|(_, words)| words);
        assert_eq!(said, Some(expected), "{registers}");
    }
}

#[test]
fn the_script_of_the_readme_is_mended_to_the_example() {
    let right = include_str!("../../../examples/pump.fir");
    let wrong = right.replace("registers r2: int", "registers r2: vector");
    let (file_of_wrong, out) = (
        file("mends", "wrong.fir", wrong.as_bytes()),
        file("mends", "mended.fir", b""),
    );
    let done = fir(&["mend", &file_of_wrong, "-o", &out], b"");
    let said = done.text().replace(&file_of_wrong, "wrong.fir");
    let readme = include_str!("../../../README.md").replace('\n', " ");
    for line in said.lines().take(2) {
        assert!(readme.contains(&format!("`{line}`")), "{line}");
    }
    assert_eq!(fs::read_to_string(&out).expect("it is written"), right);
}

#[test]
fn effects_and_flow_are_mended_too() {
    let promise = "version 0.0(r0: int) -> int\n  registers r1: reflective promise, r2: int
  level portal\n  block 0 quiet -> r2\n    r1 = prom 1\n    r2 = force r1
  block 1 quiet -> r2\n    r2 = add r0, r0\n";
    assert_eq!(
        offered(promise),
        "2:17: mend: r1 of 0.0: quiet promise in place of reflective promise"
    );
    let given = "version 0.0(r0: own vector) -> int\n  registers r1: int\n  level portal
  block 0 quiet -> r1\n    r1 = call 1.0(r0)\n    r1 = len r0
version 1.0(r0: own vector) -> int\n  registers r1: int\n  level portal
  block 0 quiet -> r1\n    r1 = len r0\n";
    assert_eq!(
        offered(given),
        "7:17: mend: parameter r0 of 1.0: borrow vector in place of own vector"
    );
}

#[test]
fn the_offer_stands_behind_the_refusal_and_is_left_out_where_asked() {
    let (text, bytes) = (
        file("mends", "text.fir", WRONG.as_bytes()),
        file("mends", "bytes", &exact(WRONG)),
    );
    let refused = format!("{text}:6:5: {WHY}\n");
    let said = format!("{refused}{text}:3:18: {MEND}\n");
    did(&fir(&["check", &text], b""), 1, &said, "");
    did(&fir(&["check", &text, "--no-mend"], b""), 1, &refused, "");
    let byte = format!("{MEND} (2 in place of 3 at 11)");
    did(
        &fir(&["check", &bytes], b""),
        1,
        &format!("{WHY}\n{byte}\n"),
        "",
    );
    let several = format!("{said}{bytes}: {WHY}\n{bytes}: {byte}\n0 accepted, 2 refused\n");
    did(&fir(&["check", &text, &bytes], b""), 1, &several, "");
    let plain = b"version 0.0(r0: vector) -> int\nlevel portal\nblock 0 quiet -> r0\n";
    let lines = |form| fir(&["check", "-", "--form", form], plain).text();
    assert_eq!(
        [lines("64"), lines("32")].map(|said| said.lines().count()),
        [2, 1]
    );
}

#[test]
fn check_says_nothing_where_nothing_mends() {
    let twice = "version 0.0(r0: vector, r1: vector) -> int\nlevel portal\nblock 0 quiet -> r0
r0 = add r1, r1\n";
    let done = fir(&["check", "-"], twice.as_bytes());
    assert_eq!((done.status, done.text().lines().count()), (1, 1));
    let json = fir(&["check", "-", "--json"], twice.as_bytes()).text();
    assert_eq!(*Value::of(json.trim()).field("mend"), Value::Null);
    let cut = fir(&["check", "-", "--json"], &IDENTITY[..22]).text();
    assert!(!cut.contains("mend"), "{cut}");
    let off = fir(&["check", "-", "--json", "--no-mend"], twice.as_bytes()).text();
    assert!(!off.contains("mend"), "{off}");
}

/// A number of an object.
#[track_caller]
fn number(object: &Value, name: &str) -> usize {
    match object.field(name) {
        Value::Number(number) => usize::try_from(*number).expect("a place"),
        other => panic!("{name}: {other:?}"),
    }
}

/// The text with the change of an object made, as an editor makes it: by line, column and
/// length in characters.
fn applied(text: &str, mend: &Value) -> String {
    let (line, column) = (number(mend, "line"), number(mend, "column"));
    let mut lines: Vec<String> = text.split('\n').map(String::from).collect();
    let signs: Vec<char> = lines[line - 1].chars().collect();
    let before: String = signs[..column - 1].iter().collect();
    let behind: String = signs[column - 1 + number(mend, "length")..]
        .iter()
        .collect();
    lines[line - 1] = format!("{before}{}{behind}", mend.field("text").text());
    lines.join("\n")
}

#[test]
fn an_editor_can_apply_the_object() {
    let done = fir(&["check", "-", "--json"], WRONG.as_bytes()).text();
    let mend = Value::of(done.trim()).field("mend").clone();
    let expected = r#"{"offset":11,"old":3,"new":2,"version":"0.0","register":1,"words":"r1 of 0.0: int in place of vector","line":3,"column":18,"length":6,"text":"int","also":[]}"#;
    assert_eq!(mend, Value::of(expected));
    let mended = applied(WRONG, &mend);
    assert_eq!(mended, WRONG.replacen("vector", "int", 1));
    assert_eq!(fir(&["check", "-"], mended.as_bytes()).status, 0);
    let bytes = fir(&["check", "-", "--json"], &exact(WRONG)).text();
    let mend = Value::of(bytes.trim()).field("mend").clone();
    let expected = r#"{"offset":11,"old":3,"new":2,"version":"0.0","register":1,"words":"r1 of 0.0: int in place of vector (2 in place of 3 at 11)","also":[]}"#;
    assert_eq!(mend, Value::of(expected));
}

#[test]
fn generated_texts_are_mended_to_the_image_that_the_library_names() {
    let mut mended = 0;
    for seed in 0..IMAGES {
        let mut image = to_mend(seed).image;
        let Mended::Byte { offset, value, .. } = library::mend(&image) else {
            continue;
        };
        let text = text::disassemble(&image);
        image[offset] = value;
        let wrong = file("mends", "generated.fir", text.as_bytes());
        let out = file("mends", "generated-mended.fir", b"");
        let done = fir(&["mend", &wrong, "-o", &out, "--json"], b"");
        assert_eq!((done.status, done.errors.as_str()), (0, ""), "seed {seed}");
        let written = fs::read_to_string(&out).expect("it is written");
        assert_eq!(text::assemble(&written), Ok(image), "seed {seed}");
        let mend = Value::of(done.text().trim()).field("mend").clone();
        assert_eq!(applied(&text, &mend), written, "seed {seed}");
        mended += 1;
    }
    assert!(mended >= 500, "{mended}");
}

#[test]
fn of_a_text_the_words_of_the_type_change_alone() {
    let windows = WRONG.replace('\n', "\r\n");
    let marked = format!("\u{feff}{windows}");
    let bare = WRONG.trim_end().to_string();
    let digits = WRONG.replacen("vector", "0x03", 1);
    for text in [WRONG, &windows, &marked, &bare, &digits] {
        let (wrong, out) = (
            file("mends", "kept.fir", text.as_bytes()),
            file("mends", "kept-mended.fir", b"before"),
        );
        let done = fir(&["mend", &wrong, "-o", &out], b"");
        let said = format!("{wrong}:6:5: {WHY}\n{wrong}:3:18: {MEND}\nmended to {out}\n");
        did(&done, 0, &said, "");
        let word = match text.contains("0x03") {
            true => "0x03",
            false => "vector",
        };
        let expected = text.replacen(word, "int", 1);
        assert_eq!(fs::read_to_string(&out).expect("it is written"), expected);
        assert_eq!(fs::read_to_string(&wrong).expect("it is there"), *text);
    }
}

#[test]
fn the_byte_of_a_bytes_line_is_mended_in_its_digits() {
    let text = "bytes 0b 00 01 00 00 00 01 01\nbytes 02 01 03 # r0\nlevel portal
block 0 quiet -> r0\n";
    let (wrong, out) = (
        file("mends", "digits.fir", text.as_bytes()),
        file("mends", "digits-mended.fir", b""),
    );
    let done = fir(&["mend", &wrong, "-o", &out], b"");
    assert_eq!(done.status, 0, "{done:?}");
    let line = done.text().lines().nth(1).map(String::from);
    let expected = format!("{wrong}:2:13: mend: parameter r0 of 0.0: int in place of vector");
    assert_eq!(line, Some(expected));
    let written = fs::read_to_string(&out).expect("it is written");
    assert_eq!(written, text.replace("03 #", "02 #"));
}

#[test]
fn a_type_without_words_of_its_own_is_named_and_not_written() {
    // The types of the VERSION are the bytes of the `level` line.
    let text = "bytes 0f 00 01 00 00 00 01 05 02 01\nlevel portal\nlevel portal
block 0 quiet -> r0\n";
    let (wrong, out) = (
        file("mends", "wordless.fir", text.as_bytes()),
        file("mends", "wordless-mended.fir", b"before"),
    );
    let done = fir(&["check", &wrong], b"").text();
    let last =
        "mend: parameter r0 of 0.0: int in place of reflective promise (2 in place of 5 at 10)";
    assert_eq!(done.lines().last(), Some(last));
    let done = fir(&["mend", &wrong, "-o", &out], b"");
    let said = format!("fir: {wrong}: the type has no words of its own in the text\n");
    did(&done, 2, "", &said);
    assert_eq!(fs::read(&out).expect("it is there"), b"before");
}

#[test]
fn mend_says_what_it_finds_and_its_status() {
    let no_other = "no mend: no other type of one register makes it accepted\n";
    let twice = WRONG.replace("r0: int", "r0: vector");
    let said = fir(&["mend", "-"], twice.as_bytes());
    assert!(said.text().ends_with(no_other), "{said:?}");
    assert_eq!(said.status, 1);
    let cut = fir(&["mend", "-"], &IDENTITY[..22]);
    let end = "no mend: a register's type mends refusals by 6, 8, 9 and 10, not by 2\n";
    assert!(cut.text().ends_with(end), "{cut:?}");
    assert_eq!(cut.status, 1);
    let accepted = "accepted: there is nothing to mend\n";
    did(&fir(&["mend", "-"], &IDENTITY), 0, accepted, "");
    let json = r#"{"file":"standard input","accepted":true}"#;
    let done = fir(&["mend", "-", "--json"], &IDENTITY);
    did(&done, 0, &format!("{json}\n"), "");
    let offered = fir(&["mend", "-"], WRONG.as_bytes());
    assert_eq!(offered.status, 1);
    assert!(offered.text().contains(MEND), "{offered:?}");
}

#[test]
fn where_nothing_is_mended_nothing_is_written() {
    let out = file("mends", "unwritten", b"before");
    let twice = WRONG.replace("r0: int", "r0: vector");
    for (input, status) in [
        (twice.as_bytes(), 1),
        (&IDENTITY, 0),
        (&IDENTITY[..22], 1),
        (b"verson", 1),
    ] {
        let done = fir(&["mend", "-", "-o", &out], input);
        assert_eq!(done.status, status, "{done:?}");
        assert_eq!(fs::read(&out).expect("it is there"), b"before");
    }
}

#[test]
fn an_image_is_written_as_bytes_and_not_under_the_name_of_a_text() {
    let (wrong, out) = (
        file("mends", "image", &exact(WRONG)),
        file("mends", "image-mended", b""),
    );
    let done = fir(&["mend", &wrong, "-o", &out], b"");
    let said = format!("{WHY}\n{MEND} (2 in place of 3 at 11)\nmended to {out}\n");
    did(&done, 0, &said, "");
    let mended = WRONG.replacen("vector", "int", 1);
    assert_eq!(fs::read(&out).expect("it is written"), exact(&mended));
    let text = file("mends", "image-mended.fir", b"before");
    let done = fir(&["mend", &wrong, "-o", &text], b"");
    let reason = format!("`{text}` would hold an image's bytes, and .fir names texts");
    let said = format!("fir mend: {reason}; see `fir mend --help`\n");
    did(&done, 2, "", &said);
    assert_eq!(fs::read(&text).expect("it is there"), b"before");
}

#[test]
fn a_failure_is_an_object_where_json_is_asked_for() {
    let done = fir(&["mend", "missing", "--json"], b"");
    assert!(done
        .text()
        .starts_with(r#"{"file":"missing","accepted":false,"error":"#));
    assert_eq!((done.status, done.errors.as_str()), (2, ""));
}
