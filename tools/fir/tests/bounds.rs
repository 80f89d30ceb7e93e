//! `fir bounds`: how many steps a run of each version takes at most, what a bound is made
//! of, the chain where there is none, and the check before a release.

mod support;

use cases::image;
use generator::{accepted, depending, exact, Shape};
use reference::longest::{rows, Row};
use reference::{Bound, Program};
use support::json::Value;
use support::{file, fir, Done};

/// 0.0 dispatches on function 1, of which 1.2 is above its level; 0.1 calls 2.0, which
/// calls 2.1, which calls 2.0 again.
const TEXT: &str = "\
version 0.0(r0: int) -> int
  level portal
  block 0 quiet -> r0
    r0 = dispatch 1(r0: int) -> int quiet
    r0 = dispatch 1() -> int quiet
version 0.1(r0: int) -> int
  level portal
  block 0 quiet -> r0
    r0 = call 2.0(r0)
version 1.0(r0: int) -> int
  registers r1: quiet promise
  level portal
  block 0 quiet -> r0
    r1 = prom 1
  block 1 quiet -> r0
    r0 = call 1.1(r0)
version 1.1(r0: int) -> int
  level portal
  block 0 quiet -> r0
version 1.2(r0: int) -> int
  level staff
  block 0 quiet -> r0
    r0 = add r0, r0
    r0 = add r0, r0
    r0 = add r0, r0
    r0 = add r0, r0
    r0 = add r0, r0
version 2.0(r0: int) -> int
  level portal
  block 0 quiet -> r0
    r0 = call 2.1(r0)
version 2.1(r0: int) -> int
  level portal
  block 0 quiet -> r0
    r0 = call 2.0(r0)
";

/// Asserts what a command did, without complaints.
#[track_caller]
fn did(done: &Done, status: u8, output: &str) {
    assert_eq!(done.text(), output);
    assert_eq!((done.status, done.errors.as_str()), (status, ""));
}

/// The rows of the image of the text.
const ROWS: &str = "\
1.1 1 step
1.0 5 steps
0.0 8 steps
1.2 6 steps
0.1 none: 0.1 calls 2.0 calls 2.1 calls 2.0
2.0 none: 2.0 calls 2.1 calls 2.0
2.1 none: 2.1 calls 2.0 calls 2.1
";

#[test]
fn an_image_has_a_line_for_each_version_in_the_order_of_the_list() {
    did(&fir(&["bounds", "-"], &image(TEXT)), 0, ROWS);
}

#[test]
fn a_text_has_the_place_of_each_version_and_several_files_have_their_names() {
    let text = file("bounds", "script.fir", TEXT.as_bytes());
    let done = fir(&["bounds", &text], b"");
    let begin = format!(
        "{text}:17:1: 1.1 1 step\n{text}:10:1: 1.0 5 steps\n{text}:1:1: 0.0 8 steps\n\
         {text}:20:1: 1.2 6 steps\n{text}:6:1: 0.1 none: 0.1 calls 2.0 calls 2.1 calls 2.0\n"
    );
    assert!(done.text().starts_with(&begin), "{}", done.text());
    let bytes = file("bounds", "one.bin", &cases::IDENTITY);
    let done = fir(&["bounds", &bytes, &bytes], b"");
    did(&done, 0, &format!("{bytes}: 0.0 1 step\n").repeat(2));
}

#[test]
fn a_bound_is_a_number_up_to_4294967295_and_then_large() {
    for (steps, words) in [
        (2, "0.0 2 steps\n"),
        (4_294_967_295, "0.0 4294967295 steps\n"),
        (4_294_967_296, "0.0 large\n"),
    ] {
        let text = fir(&["bounds", "-"], &exact(steps)).text();
        assert!(text.ends_with(words), "{steps}: {text}");
    }
}

#[test]
fn why_says_what_a_bound_is_made_of() {
    let done = fir(&["bounds", "--why", "-"], &image(TEXT));
    let text = done.text();
    for part in [
        "1.1 1 step\n  1 of its own: 0 instructions and 1 block end\n1.0 ",
        "1.0 5 steps\n  4 of its own: 2 instructions and 2 block ends\n  1 at 112: CALL of 1.1, \
         that is 1.1 1 step\n0.0 ",
        "0.0 8 steps\n  3 of its own: 2 instructions and 1 block end\n  5 at 23: DISPATCH on 1, \
         the largest of 1.0 5 steps, 1.1 1 step\n  0 at 34: DISPATCH on 1, which nothing fits\n",
        "2.1 none: 2.1 calls 2.0 calls 2.1\n  2 of its own: 1 instruction and 1 block end\n  none \
         at 262: CALL of 2.0, that is 2.0 none\n",
    ] {
        assert!(text.contains(part), "{part}\n{text}");
    }
    let large = fir(&["bounds", "--why", "-"], &exact(1 << 40)).text();
    assert!(
        large.contains(": CALL of 1.0, that is 1.0 large\n"),
        "{large}"
    );
    let text = file("bounds", "why.fir", TEXT.as_bytes());
    let text = fir(&["bounds", "--why", &text], b"").text();
    let part = "  5 at 23 (line 4): DISPATCH on 1, ";
    assert!(text.contains(part), "{text}");
}

#[test]
fn under_fails_where_an_entry_may_take_more() {
    let image = image(TEXT);
    let bounds = |rest: &[&str]| fir(&[&["bounds", "-"], rest].concat(), &image);
    let done = bounds(&["--under", "8"]);
    let over = ROWS.replace(" none:", " none, over 8:");
    did(&done, 1, &over);
    let done = bounds(&["--under", "7"]);
    assert!(done.text().contains("0.0 8 steps, over 7\n"), "{done:?}");
    assert_eq!(done.status, 1);
    did(&bounds(&["--under", "8", "--entry", "0.0"]), 0, ROWS);
    let two = ["--under=7", "--entry=1.0", "--entry=1.2"];
    did(&bounds(&two), 0, ROWS);
    let done = bounds(&["--under", "7", "--entry", "0.0"]);
    let over = ROWS.replace("8 steps", "8 steps, over 7");
    did(&done, 1, &over);
    let done = bounds(&["--under=4294967295", "--entry=0.1"]);
    let over = "0.1 none, over 4294967295: 0.1 calls 2.0 calls 2.1 calls 2.0\n";
    assert!(done.text().contains(over), "{done:?}");
    assert_eq!(done.status, 1);
    let done = fir(&["bounds", "-", "--under=4294967295"], &exact(1 << 32));
    assert!(
        done.text().ends_with("0.0 large, over 4294967295\n"),
        "{done:?}"
    );
    assert_eq!(done.status, 1);
    let done = fir(
        &["bounds", "-", "--under=4294967295"],
        &exact((1 << 32) - 1),
    );
    assert_eq!(done.status, 0, "{done:?}");
}

#[test]
fn a_refusal_is_that_of_check() {
    let cut = &cases::IDENTITY[..19];
    let check = fir(&["check", "-"], cut);
    did(&fir(&["bounds", "-"], cut), 1, &check.text());
    let bad = file(
        "bounds",
        "bad.fir",
        TEXT.replace("portal", "moon").as_bytes(),
    );
    let done = fir(&["bounds", &bad], b"");
    assert_eq!(done.errors, fir(&["check", &bad], b"").errors);
    assert_eq!(done.status, 1);
    let wrong = TEXT.replacen("call 2.0", "call 1.2", 1);
    let wrong = file("bounds", "wrong.fir", wrong.as_bytes());
    let check = fir(&["check", &wrong], b"").text();
    assert!(check.contains("refused by 18"), "{check}");
    did(&fir(&["bounds", &wrong], b""), 1, &check);
    let good = file("bounds", "good.bin", &cases::IDENTITY);
    let done = fir(&["bounds", &wrong, &good], b"");
    did(&done, 1, &format!("{check}{good}: 0.0 1 step\n"));
    let done = fir(&["bounds", "-", "--under=9", "--entry=7.0"], &image(TEXT));
    let line = "refused by 11 at 0: there is no function 7, the last function is 2\n";
    did(&done, 1, line);
    let done = fir(&["bounds", "missing"], b"");
    assert!(done.errors.contains("cannot be read"), "{done:?}");
    assert_eq!(done.status, 2);
}

#[test]
fn json_has_an_object_for_each_version() {
    let done = fir(
        &["bounds", "-", "--json", "--under=5", "--why"],
        TEXT.as_bytes(),
    );
    assert_eq!((done.status, done.errors.as_str()), (1, ""));
    let text = done.text();
    let lines: Vec<&str> = text.lines().collect();
    assert_eq!(lines.len(), 7);
    assert!(lines
        .iter()
        .all(|line| matches!(Value::of(line), Value::Object(_))));
    let file = r#"{"file":"standard input","#;
    let row = r#""version":"1.1","bound":1,"offset":121,"line":17,"column":1,"over":false,"why":{"instructions":0,"block_ends":1,"calls":[]}}"#;
    assert_eq!(lines[0], format!("{file}{row}"));
    let begin = format!(
        r#"{file}"version":"0.0","bound":8,"offset":0,"line":1,"column":1,"over":true,"why":{{"instructions":2,"block_ends":1,"calls":[{{"offset":23,"line":4,"column":5,"call":"DISPATCH on 1","largest":5,"reaches":[{{"version":"1.0","bound":5}},{{"version":"1.1","bound":1}}]}},"#
    );
    assert!(lines[2].starts_with(&begin), "{}", lines[2]);
    let chain = r#""bound":"none","offset":43,"line":6,"column":1,"chain":["0.1","2.0","2.1","2.0"],"over":true,"#;
    assert!(lines[4].contains(chain), "{}", lines[4]);
    let refused = fir(&["bounds", "-", "--json"], &cases::IDENTITY[..19]).text();
    let begin = r#"{"file":"standard input","result":"refused","question":2,"offset":16,"#;
    assert!(refused.starts_with(begin), "{refused}");
    let failed = fir(&["bounds", "missing", "--json"], b"");
    let begin = r#"{"file":"missing","result":"failed","error":"#;
    assert!(failed.text().starts_with(begin), "{failed:?}");
    assert_eq!(failed.status, 2);
}

#[test]
fn the_command_line_is_read() {
    for (words, reason) in [
        (&["bounds"][..], "fir bounds: no file is named"),
        (
            &["bounds", "a", "--under", "x"],
            "fir bounds: `x` is no number of steps of 0 to 4294967295",
        ),
        (
            &["bounds", "a", "--under=4294967296"],
            "fir bounds: `4294967296` is no number of steps of 0 to 4294967295",
        ),
        (
            &["bounds", "a", "--entry=0.0"],
            "fir bounds: --entry stands beside --under alone",
        ),
        (
            &["bounds", "-", "-"],
            "fir bounds: standard input is named twice",
        ),
    ] {
        let done = fir(words, b"");
        assert!(done.errors.starts_with(reason), "{words:?}: {done:?}");
        assert_eq!(done.status, 2);
    }
}

/// The line of a row without its chain.
fn line(row: &Row) -> String {
    let (function, version) = (row.function, row.version);
    match row.bound {
        Bound::Steps(1) => format!("{function}.{version} 1 step"),
        Bound::Steps(steps) => format!("{function}.{version} {steps} steps"),
        Bound::Large => format!("{function}.{version} large"),
        Bound::None => format!("{function}.{version} none"),
    }
}

/// Asserts the lines of an accepted image, and that each chain begins at its version and
/// comes back; how many chains there are.
#[track_caller]
fn compared(image: &[u8], origin: &str) -> usize {
    let program = Program::accept(image).expect("an accepted image");
    let rows = rows(&program);
    let text = fir(&["bounds", "-"], image).text();
    let lines: Vec<&str> = text.lines().collect();
    assert_eq!(lines.len(), rows.len(), "{origin}");
    let mut chains = 0;
    for (row, line_of) in rows.iter().zip(lines) {
        let (begin, chain) = line_of.split_once(": ").unwrap_or((line_of, ""));
        assert_eq!(begin, line(row), "{origin}");
        assert_eq!(row.bound == Bound::None, !chain.is_empty(), "{origin}");
        if !chain.is_empty() {
            let names: Vec<&str> = chain.split(" calls ").collect();
            let (last, before) = names.split_last().expect("a name");
            assert!(before.contains(last), "{origin}: {chain}");
            let own = format!("{}.{}", row.function, row.version);
            assert_eq!(names[0], own, "{origin}");
            chains += 1;
        }
    }
    chains
}

#[test]
fn generated_images_have_the_rows_of_the_reference_and_chains_that_come_back() {
    let mut chains = 0;
    for seed in 0..1_500 {
        let given = depending(seed);
        if given.shape != Shape::Broken {
            chains += compared(&given.image, &format!("seed {seed}"));
        }
        chains += compared(&accepted(seed), &format!("grown {seed}"));
    }
    assert!(chains >= 500, "{chains}");
}
