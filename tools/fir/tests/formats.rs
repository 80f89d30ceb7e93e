//! `fir fmt`: what it writes, what it leaves, and that no image becomes another.

mod support;

use generator::{accepted, any, mutated, Random};
use std::fs;
use std::os::unix::fs::PermissionsExt;
use support::{did, file, fir, folder, names, put};

/// The examples.
const EXAMPLES: &str = concat!(env!("CARGO_MANIFEST_DIR"), "/../../examples");
/// The documents with scripts.
const DOCUMENTS: [&str; 2] = [
    include_str!("../../../docs/LANGUAGE.md"),
    include_str!("../../../docs/TEXT-FORM.md"),
];

/// A text that is not laid out, and the same laid out.
const LOOSE: &str = "version 0.0(flow:int)->int # a\n level portal\nblock 0 quiet->flow\n";
const LAID: &str = "version 0.0(flow: int) -> int  # a\n  level portal\n  block 0 quiet -> flow\n";

/// How many texts of each sort are made.
const TEXTS: u64 = 300;

#[test]
fn a_text_is_laid_out_in_place_and_told_once() {
    let home = folder("formats", "place");
    let path = put(&home, "loose.fir", LOOSE.as_bytes());
    fs::set_permissions(&path, fs::Permissions::from_mode(0o640)).expect("they are set");
    did(
        &fir(&["fmt", &path], b""),
        0,
        &format!("{path}: laid out anew\n"),
        "",
    );
    assert_eq!(fs::read_to_string(&path).expect("it is there"), LAID);
    let mode = fs::metadata(&path)
        .expect("it is there")
        .permissions()
        .mode();
    assert_eq!(mode & 0o777, 0o640, "who may read it stays");
    let before = fs::metadata(&path)
        .expect("it is there")
        .modified()
        .expect("a time");
    did(&fir(&["fmt", &path], b""), 0, "", "");
    let after = fs::metadata(&path)
        .expect("it is there")
        .modified()
        .expect("a time");
    assert_eq!(before, after, "it is not written again");
    assert_eq!(names(&home), ["loose.fir"], "no other file is left");
}

#[test]
fn check_writes_nothing_and_names_the_first_line() {
    let path = file(
        "formats",
        "check.fir",
        format!("# head\n\n{LOOSE}").as_bytes(),
    );
    let right = file("formats", "right.fir", LAID.as_bytes());
    let said = format!("{path}:3:1: is laid out otherwise by `fir fmt`\n");
    did(&fir(&["fmt", "--check", &path, &right], b""), 1, &said, "");
    did(&fir(&["fmt", "--check", &right], b""), 0, "", "");
    let text = fs::read_to_string(&path).expect("it is there");
    assert_eq!(text, format!("# head\n\n{LOOSE}"));
    let short = file("formats", "short.fir", LAID.trim_end().as_bytes());
    let said = format!("{short}:3:1: is laid out otherwise by `fir fmt`\n");
    did(&fir(&["fmt", "--check", &short], b""), 1, &said, "");
}

#[test]
fn standard_input_goes_to_standard_output() {
    did(&fir(&["fmt", "-"], LOOSE.as_bytes()), 0, LAID, "");
    did(&fir(&["fmt", "-"], LAID.as_bytes()), 0, LAID, "");
    let said = "standard input:1:1: is laid out otherwise by `fir fmt`\n";
    did(
        &fir(&["fmt", "--check", "-"], LOOSE.as_bytes()),
        1,
        said,
        "",
    );
    let marked = format!("\u{feff}{LOOSE}");
    let done = fir(&["fmt", "-"], marked.as_bytes());
    assert_eq!(
        done.text(),
        format!("\u{feff}{LAID}"),
        "a byte order mark stays"
    );
}

#[test]
fn what_does_not_assemble_is_told_and_left_and_the_others_are_laid_out() {
    let wrong = "version 0.0(flow:int)->int\n  r0 = lot 1\n";
    let path = file("formats", "wrong.fir", wrong.as_bytes());
    let loose = file("formats", "other.fir", LOOSE.as_bytes());
    let done = fir(&["fmt", &path, &loose], b"");
    let said = format!("{path}:2:8: expected an instruction, found `lot`\n");
    did(&done, 1, &format!("{loose}: laid out anew\n"), &said);
    assert_eq!(fs::read_to_string(&path).expect("it is there"), wrong);
    assert_eq!(fs::read_to_string(&loose).expect("it is there"), LAID);
}

#[test]
fn bytes_and_files_that_cannot_be_read_or_written_are_told() {
    let image = text::assemble(LAID).expect("a text that is well formed");
    let path = file("formats", "image.bin", &image);
    let said =
        format!("fir: {path}: holds an image's bytes, and no text; `fir dis` writes its text\n");
    did(&fir(&["fmt", &path], b""), 2, "", &said);
    assert_eq!(fs::read(&path).expect("it is there"), image);
    let missing = path.replace("image.bin", "missing.fir");
    let done = fir(&["fmt", &missing], b"");
    assert_eq!((done.status, &*done.text()), (2, ""));
    assert!(done.errors.contains("cannot be read"), "{}", done.errors);
}

/// Asserts that a text is laid out to one that makes the same image, has the same words and
/// comments, and stays as it is; that text.
#[track_caller]
fn keeps(text: &str, origin: &str) -> String {
    let anew = text::lay_out(text).unwrap_or_else(|error| panic!("{origin}: {error}"));
    assert_eq!(
        text::assemble(&anew),
        text::assemble(text),
        "{origin}: the image"
    );
    assert_eq!(
        text::lay_out(&anew).as_ref(),
        Ok(&anew),
        "{origin}: a second time"
    );
    let signs = |text: &str| -> String { text.split_whitespace().collect() };
    assert_eq!(signs(&anew), signs(text), "{origin}: words and comments");
    let comments = |text: &str| -> Vec<String> {
        let comments = text.lines().filter_map(|line| line.split_once('#'));
        comments
            .map(|(_, comment)| comment.trim_end().to_string())
            .collect()
    };
    assert_eq!(comments(&anew), comments(text), "{origin}: comments");
    anew
}

#[test]
fn examples_and_scripts_of_documents_are_laid_out_as_they_stand() {
    let mut tried = 0;
    for entry in fs::read_dir(EXAMPLES).expect("the examples are there") {
        let path = entry.expect("an entry").path();
        if path.extension().is_some_and(|end| end == "fir") {
            let text = fs::read_to_string(&path).expect("it is there");
            assert_eq!(keeps(&text, "an example"), text, "{}", path.display());
            tried += 1;
        }
    }
    assert!(tried > 10, "{tried} examples");
    let scripts = DOCUMENTS
        .iter()
        .flat_map(|text| text.split("```fir\n").skip(1));
    for script in scripts.filter_map(|behind| behind.split("```").next()) {
        keeps(script, "a document");
        tried += 1;
    }
    assert!(tried > 100, "{tried} texts");
}

/// A text with other spaces, blank lines and comments in it.
fn loosened(random: &mut Random, text: &str) -> String {
    let mut loose = String::new();
    for line in text.lines() {
        for _ in 0..random.below(3) {
            loose += random.pick(&["", "\n", "  \n", "# a  # b\n", "\t# c\n", "#\n"]);
        }
        loose += random.pick(&["", " ", "\t", "       "]);
        for sign in line.trim().chars() {
            let stands_alone = "(),:=[]?".contains(sign);
            let space = |random: &mut Random| random.pick(&["", " ", "  "]);
            if stands_alone {
                loose += space(random);
            }
            loose.push(sign);
            if stands_alone || sign == ' ' {
                loose += space(random);
            }
        }
        loose += random.pick(&["", "", " ", "# d", "   # é  "]);
        loose += random.pick(&["\n", "\n", "\n", "\r\n"]);
    }
    loose
}

/// A text with names for some of its registers.
fn named(random: &mut Random, text: &str) -> String {
    let mut named = text.to_string();
    for register in (0..16).rev().filter(|_| random.one_in(2)) {
        named = named.replace(&format!("r{register}"), &format!("called_{register}"));
    }
    named
}

#[test]
fn generated_texts_keep_their_images_and_texts_of_dis_stay_as_they_are() {
    for seed in 0..TEXTS {
        let mut random = Random::new(seed);
        for (sort, image) in [
            ("accepted", accepted(seed)),
            ("mutated", mutated(seed)),
            ("any", any(seed)),
        ] {
            let origin = format!("{sort} {seed}");
            let text = text::disassemble(&image);
            assert_eq!(keeps(&text, &origin), text, "{origin}");
            let called = match sort {
                "accepted" => named(&mut random, &text),
                _ => text,
            };
            let loose = loosened(&mut random, &called);
            assert_eq!(
                text::assemble(&loose).as_ref(),
                Ok(&image),
                "{origin}\n{loose}"
            );
            keeps(&loose, &origin);
        }
    }
}
