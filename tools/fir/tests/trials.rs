//! `fir test`: the tests in the comments of scripts, those of the examples and of the documents
//! among them.

mod support;

use std::fs;
use support::json::Value;
use support::{did, file, fir, folder, put};

/// The examples.
const EXAMPLES: &str = concat!(env!("CARGO_MANIFEST_DIR"), "/../../examples");
/// The documents whose scripts carry tests.
const LANGUAGE: &str = include_str!("../../../docs/LANGUAGE.md");
const TEXT_FORM: &str = include_str!("../../../docs/TEXT-FORM.md");

/// The least that each example carries.
const LEAST: usize = 3;

/// A version that doubles, for staff, and one that gets an item.
const SCRIPT: &str = "\
version 0.0(r0: int) -> int
  level staff
  block 0 quiet -> r0
    r0 = add r0, r0

version 1.0(r0: vector, r1: int) -> int
  level portal
  block 0 quiet -> r1
    r1 = get r0[r1]

version 2.0(r0: int) -> own vector
  registers r1: own vector
  level portal
  block 0 quiet -> r1
    r1 = vec [r0, r0]
";

/// The script with lines behind it, which begin with line 17.
fn with(lines: &str) -> String {
    format!("{SCRIPT}\n{lines}\n")
}

/// Asserts what `fir test -` prints for the script with these lines.
#[track_caller]
fn tried(lines: &str, status: u8, output: &str, errors: &str) {
    let done = fir(&["test", "-"], with(lines).as_bytes());
    did(&done, status, output, errors);
}

/// Asserts that a line is in form, and passes.
#[track_caller]
fn passes(line: &str) {
    tried(line, 0, "1 passed, 0 failed\n", "");
}

/// Asserts that a line fails so.
#[track_caller]
fn fails(line: &str, words: &str) {
    let said = format!("standard input:17:3: {words}\n0 passed, 1 failed\n");
    tried(line, 1, &said, "");
}

/// Asserts that a line is malformed, in a column.
#[track_caller]
fn malformed(line: &str, column: usize, reason: &str) {
    let said = format!("standard input:17:{column}: {reason}\n");
    tried(line, 1, "0 passed, 0 failed, 1 malformed\n", &said);
}

#[test]
fn what_is_expected_passes() {
    for line in [
        "# test 0.0 7: DONE 14",
        "#test 0.0 7:DONE 14",
        "   #   test   0.0   -7 :  DONE   -14   ",
        "# test 0.0 7: DONE 14 after 2 steps",
        "# test 0.0 7: DONE 14 within 2 steps",
        "# test 0.0 7: DONE 14 within 3 steps # a remark: with a colon",
        "# test 0.0 7 --budget 1: STEPS after 1 step",
        "# test 0.0 7 --budget=2 --level=staff: DONE 14",
        "# test 0.0 --level staff 7: DONE 14",
        "# test 0.0 7 --level portal: refused by 19",
        "# test 0.0 7 --level 0: refused by 19 at 0",
        "# test 0.0 [7]: refused by 12",
        "# test 0.1 7: refused by 11",
        "# test 0.0 9223372036854775807: UNDEF",
        "# test 0.0 9223372036854775807: UNDEF after 1 step",
        "# test 1.0 [4, 5, 6] 2: DONE 6",
        "# test 1.0 [4,5,6] 3: UNDEF",
        "# test 1.0 [] 0: UNDEF",
        "# test 2.0 -3: DONE [-3,-3]",
        "# test 2.0 -3: DONE [ -3, -3 ] after 2 steps",
        "# test check: accepted",
        "# test check: accepted 3",
    ] {
        passes(line);
    }
}

#[test]
fn a_failing_test_says_its_place_what_was_expected_and_what_came() {
    let words = "test 0.0 7: expected DONE 15, came DONE 14 after 2 steps";
    fails("# test 0.0 7: DONE 15", words);
    let words = "test 0.0 7: expected DONE 14 after 3 steps, came DONE 14 after 2 steps";
    fails("# test 0.0 7: DONE 14 after 3 steps", words);
    let words = "test 0.0 7: expected DONE 14 within 1 step, came DONE 14 after 2 steps";
    fails("# test 0.0 7: DONE 14 within 1 step", words);
    let words = "test 2.0 7: expected DONE [7, 8], came DONE [7, 7] after 2 steps";
    fails("# test 2.0 7: DONE [7, 8]", words);
    let words = "test 2.0 7: expected DONE 7, came DONE [7, 7] after 2 steps";
    fails("# test 2.0 7: DONE 7", words);
    let words = "test check: expected accepted 2, came accepted 3";
    fails("# test check: accepted 2", words);
}

#[test]
fn a_failing_test_says_where_the_run_stands_or_why_it_is_refused() {
    let words = "test 1.0 [4] 1: expected DONE 4, came UNDEF after 1 step\n\
        standard input:9:5: at 55 in 1.0, block 0: r1 = get r0[r1]: index 1 is outside of v0 [4]";
    fails("# test 1.0 [4] 1: DONE 4", words);
    let words = "test 0.0 7 --budget 0: expected DONE 14, came STEPS after 0 steps\n\
        standard input:4:5: at 23 in 0.0, block 0: r0 = add r0, r0";
    fails("# test 0.0 7 --budget 0: DONE 14", words);
    let words = "test 0.0 [7]: expected DONE 14, came refused by 12 at 0: \
        parameter r0 of 0.0 is an integer, and got the vector [7]";
    fails("# test 0.0 [7]: DONE 14", words);
    let words = "test 0.0 7: expected refused by 19 at 5, came DONE 14 after 2 steps";
    fails("# test 0.0 7: refused by 19 at 5", words);
    let words = "test 0.0 7 --level portal: expected refused by 12, came refused by 19 at 0: \
        0.0 is of level staff, and the run states portal";
    fails("# test 0.0 7 --level portal: refused by 12", words);
    let words = "test 0.0 7 --level portal: expected refused by 19 after 0 steps, \
        came refused by 19 at 0: 0.0 is of level staff, and the run states portal";
    fails(
        "# test 0.0 7 --level portal: refused by 19 after 0 steps",
        words,
    );
}

#[test]
fn the_tests_of_a_refused_image_may_expect_the_refusal() {
    let script = "version 0.0(r0: int) -> int\n  registers r1: vector\n  level portal\n  \
        block 0 quiet -> r0\n    r1 = lit 2\n";
    let refused = format!(
        "{script}# test check: refused by 8\n# test check: refused by 8 at 24\n\
         # test 0.0 7: refused by 8 at 24\n# test check: accepted\n"
    );
    let done = fir(&["test", "-"], refused.as_bytes());
    let said = "standard input:9:3: test check: expected accepted, came refused by 8 at 24\n\
        standard input:5:5: refused by 8 at 24: LIT gives an integer, r1 is a shared vector\n\
        3 passed, 1 failed\n";
    did(&done, 1, said, "");
}

#[test]
fn a_malformed_test_is_told_at_its_place_and_is_no_comment() {
    let no_colon = "a test has `:` and a result such as DONE 1 behind what is run";
    malformed("# test 0.0 7 DONE 14", 21, no_colon);
    malformed("# test", 7, no_colon);
    malformed("# test the sensors first", 25, no_colon);
    let version = "a test names a version such as 0.0, or `check`";
    malformed("# test: DONE 14", 7, version);
    let entry = "`0` names no version; write one such as 0.0";
    malformed("# test 0 7: DONE 14", 8, entry);
    let integer = "`x` is no integer of -9223372036854775808 to 9223372036854775807; \
        write 7, -7 or [1,2,3]";
    malformed("# test 0.0 x: DONE 14", 12, integer);
    malformed(
        "# test 1.0 [4 x: DONE 14",
        12,
        "`[4 x` has no `]` at its end",
    );
    malformed("# test check 7: accepted", 14, "`7` is one too many");
    let option = "`--stats` is none of --level, --budget and --then";
    malformed("# test 0.0 7 --stats: DONE 14", 14, option);
    malformed(
        "# test 0.0 7 --level: DONE 14",
        14,
        "nothing follows --level",
    );
    let level = "--level is portal, staff or factory, not `tenant`";
    malformed("# test 0.0 7 --level tenant: DONE 14", 22, level);
    malformed("# test 0.0 7 --level=tenant: DONE 14", 22, level);
    let twice = "# test 0.0 7 --budget 1 --budget 2: STEPS";
    malformed(twice, 25, "--budget stands twice");
    let budget = "`-1` is no budget of 0 to 4294967295";
    malformed("# test 0.0 7 --budget -1: STEPS", 23, budget);
    let then = "`new.fir` is no image and step such as new.fir@100";
    malformed("# test 0.0 7 --then new.fir: DONE 14", 21, then);
    let input = "a test's image stands in a file";
    malformed("# test 0.0 7 --then -@1: DONE 14", 21, input);
}

#[test]
fn a_malformed_result_is_told_at_its_place() {
    let run = "expected DONE with its value, UNDEF, STEPS, DEEP, VECTORS, PROMISES \
        or `refused by` a number";
    malformed("# test 0.0 7:", 14, run);
    malformed("# test 0.0 7: 14", 15, run);
    malformed("# test 0.0 7: done 14", 15, run);
    malformed("# test 0.0 7: accepted", 15, run);
    malformed(
        "# test check: DONE 1",
        15,
        "expected accepted or `refused by` a number",
    );
    let value = "DONE has an integer or a vector behind it";
    malformed("# test 0.0 7: DONE", 19, value);
    let integer = "`x` is no integer of -9223372036854775808 to 9223372036854775807; \
        write 7, -7 or [1,2,3]";
    malformed("# test 0.0 7: DONE x", 20, integer);
    malformed(
        "# test 0.0 7: refused by",
        25,
        "expected a question's number behind `by`",
    );
    malformed("# test 0.0 7: refused", 15, run);
}

#[test]
fn malformed_steps_and_numbers_are_told_at_their_place() {
    malformed("# test 0.0 7: DONE 14 15", 23, "`15` does not stand here");
    malformed("# test 0.0 7: DONE 14 at 3", 23, "`at` does not stand here");
    malformed("# test 0.0 7: DONE 14 after", 28, "nothing follows `after`");
    let number = "`x` is no number of 0 to 4294967295";
    malformed("# test 0.0 7: DONE 14 after x steps", 29, number);
    malformed(
        "# test 0.0 7: DONE 14 after 2",
        30,
        "expected `steps` behind the number",
    );
    malformed(
        "# test 0.0 7: DONE 14 after 2 days",
        31,
        "expected `steps`, found `days`",
    );
    let again = "# test 0.0 7: DONE 14 after 2 steps within 3 steps";
    malformed(again, 37, "`within` does not stand here");
    let question = "expected a question's number, found `x`";
    malformed("# test 0.0 7: refused by x", 26, question);
    malformed(
        "# test check: refused by 8 after 1 step",
        28,
        "`after` does not stand here",
    );
    let versions = "expected a number of versions, found `all`";
    malformed("# test check: accepted all", 24, versions);
}

#[test]
fn what_reads_like_a_test_is_told_and_other_comments_are_left() {
    let word = "a test begins with the word `test`";
    malformed("# Test 0.0 7: DONE 14", 3, word);
    malformed("# tests 0.0 7: DONE 14", 3, word);
    malformed("# TEST check: accepted", 3, word);
    let own = "a test stands on a line of its own";
    malformed("version 3.0(r0: int) -> int # test 3.0 7: DONE 7", 31, own);
    for comment in [
        "# Test it first.",
        "# tested 0.0",
        "# testing: 0.0",
        "# the test 0.0 7: DONE 1",
    ] {
        let none = "standard input: no tests, which are comments such as `# test 0.0 7: DONE 8`\n\
            0 passed, 0 failed\n";
        tried(comment, 1, none, "");
    }
}

#[test]
fn one_malformed_test_does_not_hide_the_others() {
    let lines = "# test 0.0 7: DONE 14\n# test 0.0 7 DONE\n# test 0.0 8: DONE 17";
    let done = fir(&["test", "-"], with(lines).as_bytes());
    let said = "standard input:19:3: test 0.0 8: expected DONE 17, came DONE 16 after 2 steps\n\
        1 passed, 1 failed, 1 malformed\n";
    let wrong =
        "standard input:18:18: a test has `:` and a result such as DONE 1 behind what is run\n";
    did(&done, 1, said, wrong);
}

#[test]
fn a_run_goes_on_under_an_image_beside_the_script() {
    let (pump, later) = ("pump.fir", "pump_later.fir");
    let home = folder("trials", "change");
    let text = fs::read_to_string(format!("{EXAMPLES}/{pump}")).expect("it is there");
    let code = text.lines().filter(|line| !line.starts_with('#'));
    let code: Vec<&str> = code.collect();
    let code = code.join("\n");
    let script = |tests: &str| put(&home, pump, format!("{tests}\n{code}\n").as_bytes());
    let new = fs::read(format!("{EXAMPLES}/{later}")).expect("it is there");
    put(&home, later, &new);
    let right = "# test 0.0 210 [200,195,225] --then pump_later.fir@12: DONE 25 after 22 steps\n\
        # test 0.0 210 [200,195,225] --then pump_later.fir@9: refused by 15 at 133 after 9 steps\n\
        # test 0.0 210 [200,195,225] --then pump_later.fir@12 --budget 15: STEPS after 15 steps";
    did(
        &fir(&["test", &script(right)], b""),
        0,
        "3 passed, 0 failed\n",
        "",
    );
    let path = script("# test 0.0 210 [200,195,225] --then pump_later.fir@100: DONE 10");
    let said = format!(
        "{path}:1:3: test 0.0 210 [200,195,225] --then pump_later.fir@100: expected DONE 10, \
         came DONE 10 after 18 steps\n  not reached: {home}/pump_later.fir@100\n0 passed, 1 failed\n"
    );
    did(&fir(&["test", &path], b""), 1, &said, "");
    let path = script(
        "# test 0.0 210 [200,195,225] --then pump_later.fir@12 --budget 5: STEPS after 5 steps",
    );
    let said = fir(&["test", &path], b"").text();
    assert!(said.contains("came STEPS after 5 steps\n"), "{said}");
    let last = format!("  not reached: {home}/pump_later.fir@12\n0 passed, 1 failed\n");
    assert!(said.ends_with(&last), "{said}");
    let path = script("# test 0.0 210 [1,2,3] --then missing.fir@1: DONE 10");
    let done = fir(&["test", &path], b"");
    assert_eq!(done.status, 2);
    let begin = format!(
        "{path}:1:3: test 0.0 210 [1,2,3] --then missing.fir@1: expected DONE 10, came no run\n\
         fir: {home}/missing.fir: cannot be read: "
    );
    assert!(done.text().starts_with(&begin), "{}", done.text());
}

#[test]
fn a_filter_leaves_out_tests_whose_line_does_not_hold_it() {
    let lines = "# test 0.0 7: DONE 14 # heating\n# test 0.0 8: DONE 17\n# test check: accepted";
    let text = with(lines);
    let filtered = |filter: &str| fir(&["test", "-", "--filter", filter], text.as_bytes());
    did(
        &filtered("heating"),
        0,
        "1 passed, 0 failed, 2 left out\n",
        "",
    );
    did(
        &filtered("check"),
        0,
        "1 passed, 0 failed, 2 left out\n",
        "",
    );
    let none = filtered("nothing of this");
    did(&none, 1, "0 passed, 0 failed, 3 left out\n", "");
}

#[test]
fn files_without_tests_and_without_an_image_are_named() {
    let plain = file("trials", "plain.fir", SCRIPT.as_bytes());
    let wrong = file("trials", "wrong.fir", b"version 0.0(\n# test 0.0: DONE 1\n");
    let right = file(
        "trials",
        "right.fir",
        with("# test 0.0 7: DONE 14").as_bytes(),
    );
    let image = text::assemble(SCRIPT).expect("a text that is well formed");
    let bytes = file("trials", "image.bin", &image);
    let none = format!("{plain}: no tests, which are comments such as `# test 0.0 7: DONE 8`\n");
    let done = fir(&["test", &plain, &right], b"");
    did(&done, 0, &format!("{none}1 passed, 0 failed\n"), "");
    let done = fir(&["test", &bytes], b"");
    let said =
        format!("{bytes}: no tests, which stand in the comments of a text\n0 passed, 0 failed\n");
    did(&done, 1, &said, "");
    let done = fir(&["test", &right, &wrong], b"");
    assert_eq!(
        (done.status, &*done.text()),
        (1, "1 passed, 0 failed, 1 file not tried\n")
    );
    assert!(
        done.errors.starts_with(&format!("{wrong}:1:")),
        "{}",
        done.errors
    );
    let missing = plain.replace("plain", "missing");
    let done = fir(&["test", &missing, &right, &missing], b"");
    assert_eq!(
        (done.status, &*done.text()),
        (2, "1 passed, 0 failed, 2 files not tried\n")
    );
}

#[test]
fn objects_have_what_the_lines_have() {
    let lines = "# test 0.0 7: DONE 14\n# test 1.0 [4] 1: DONE 4 within 9 steps\n# test 0.0";
    let path = file("trials", "objects.fir", with(lines).as_bytes());
    let missing = path.replace("objects", "missing");
    let done = fir(&["test", "--json", &path, &missing], b"");
    assert_eq!((done.status, &*done.errors), (2, ""));
    let text = done.text();
    let objects: Vec<Value> = text.lines().map(Value::of).collect();
    let results = objects.iter().map(|object| object.field("result").text());
    let results: Vec<&str> = results.collect();
    assert_eq!(
        results,
        ["passed", "failed", "malformed", "unread", "summary"]
    );
    let failed = &objects[1];
    assert_eq!(failed.field("file").text(), path);
    assert_eq!(failed.field("line"), &Value::Number(18));
    assert_eq!(failed.field("column"), &Value::Number(3));
    assert_eq!(failed.field("test").text(), "1.0 [4] 1");
    assert_eq!(failed.field("expected").text(), "DONE 4 within 9 steps");
    assert_eq!(failed.field("came").text(), "UNDEF after 1 step");
    let detail = failed.field("details").list()[0].text();
    assert!(detail.ends_with("index 1 is outside of v0 [4]"), "{detail}");
    assert_eq!(objects[2].field("column"), &Value::Number(11));
    let summary = &objects[4];
    for (name, count) in [
        ("passed", 1),
        ("failed", 1),
        ("malformed", 1),
        ("files_not_tried", 1),
    ] {
        assert_eq!(summary.field(name), &Value::Number(count), "{name}");
    }
}

/// The tests of a text: lines whose comment begins with the word.
fn tests_of(text: &str) -> usize {
    let lines = text.lines().map(str::trim_start);
    lines.filter(|line| line.starts_with("# test ")).count()
}

#[test]
fn the_tests_of_all_examples_pass() {
    let entries = fs::read_dir(EXAMPLES).expect("the examples are there");
    let paths = entries.map(|entry| entry.expect("an entry").path());
    let scripts = paths.filter(|path| path.extension().is_some_and(|end| end == "fir"));
    let scripts: Vec<String> = scripts.map(|path| path.display().to_string()).collect();
    let mut all = 0;
    for script in &scripts {
        let count = tests_of(&fs::read_to_string(script).expect("it is there"));
        assert!(count >= LEAST, "{script} carries {count} tests");
        all += count;
    }
    let words: Vec<&str> = ["test"]
        .into_iter()
        .chain(scripts.iter().map(String::as_str))
        .collect();
    did(
        &fir(&words, b""),
        0,
        &format!("{all} passed, 0 failed\n"),
        "",
    );
}

/// Asserts that each script of a document carries tests, and passes them.
#[track_caller]
fn assert_document(document: &str, name: &str) {
    let scripts = document.split("```fir\n").skip(1);
    let mut tried = 0;
    for behind in scripts {
        let script = behind.split("```").next().unwrap_or_default();
        let count = tests_of(script);
        assert!(count > 0, "{name}: a script without tests:\n{script}");
        let done = fir(&["test", "-"], script.as_bytes());
        assert_eq!(
            done.text(),
            format!("{count} passed, 0 failed\n"),
            "{name}:\n{script}"
        );
        tried += 1;
    }
    assert!(tried > 3, "{name} has {tried} scripts");
}

#[test]
fn the_tests_of_all_scripts_of_the_documents_pass() {
    assert_document(LANGUAGE, "LANGUAGE");
    assert_document(TEXT_FORM, "TEXT-FORM");
}
