//! `--then`: a run that goes on under another image, and the words where it may not.

mod support;

use cases::{adding, image};
use support::{file, fir, Done, STEPS};

/// Runs 0.0 of a text with 5, and goes on under other texts after so many steps; what
/// is done, with the files' names as `old.fir` and `new0.fir`, `new1.fir` ..
fn changed(test: &str, command: &str, old: &str, new: &[(&str, u32)], rest: &[&str]) -> Done {
    let old = file(test, "old.fir", old.as_bytes());
    let mut words = vec![command.to_string(), old.clone(), "0.0".into(), "5".into()];
    for (number, (text, step)) in new.iter().enumerate() {
        let file = file(test, &format!("new{number}.fir"), text.as_bytes());
        words.extend(["--then".to_string(), format!("{file}@{step}")]);
    }
    words.extend(rest.iter().map(|word| word.to_string()));
    let words: Vec<&str> = words.iter().map(String::as_str).collect();
    let mut done = fir(&words, b"");
    let folder = old.strip_suffix("old.fir").expect("its name");
    done.output = done.text().replace(folder, "").into_bytes();
    done
}

/// Asserts what a command did, without complaints.
#[track_caller]
fn did(done: &Done, status: u8, output: &str) {
    assert_eq!(done.text(), output);
    assert_eq!((done.status, done.errors.as_str()), (status, ""));
}

#[test]
fn a_run_goes_on_under_the_new_image() {
    // CALL, LIT, ADD, end: after 4 steps 1.0 is not live.
    let done = changed("goes", "run", &adding(1), &[(&adding(100), 4)], &[]);
    did(
        &done,
        0,
        "after 4 steps: goes on under new0.fir\nDONE 106 after 9 steps\n",
    );
    let done = changed("goes", "run", &adding(1), &[(&adding(100), 0)], &[]);
    did(
        &done,
        0,
        "after 0 steps: goes on under new0.fir\nDONE 205 after 9 steps\n",
    );
}

#[test]
fn several_images_are_tried_in_the_order_of_their_steps() {
    let new = [(&adding(100)[..], 4), (&adding(10), 0), (&adding(20), 0)];
    let done = changed("several", "run", &adding(1), &new, &[]);
    did(
        &done,
        0,
        "after 0 steps: goes on under new1.fir
after 0 steps: goes on under new2.fir
after 4 steps: goes on under new0.fir
DONE 125 after 9 steps
",
    );
}

#[test]
fn a_trace_has_a_line_for_the_change_and_counts_on() {
    let done = changed("trace", "trace", &adding(1), &[(&adding(100), 4)], &[]);
    let text = done.text();
    let lines: Vec<&str> = text.lines().collect();
    assert_eq!(lines.len(), 11);
    assert!(lines[3].starts_with("     4   2  1.0   block 0  end -> r0"));
    assert_eq!(lines[4], "after 4 steps: goes on under new0.fir");
    assert!(lines[5].starts_with("     5   1  0.0   block 0  r0 = call 1.0(r0)"));
    assert!(lines[6].contains("r1 = lit 100 "), "{}", lines[6]);
    assert_eq!(lines[10], "DONE 106 after 9 steps");
    assert_eq!(done.status, 0);
}

#[test]
fn a_version_that_differs_is_named_with_the_byte_in_both_images() {
    // 1.0 is live after 1 step. Its VERSION has 12 bytes, its LEVEL 5, its BLOCK 7, and
    // LIT's integer begins at byte 5 of its record.
    let refused =
        "new0.fir:6:1: refused by 15 at 41 after 1 step: 1.0 has a live call and differs: ";
    let stands = "old.fir:10:5: at 65 in 1.0, block 0: r1 = lit 1\n";
    for (there, other, words) in [
        (
            "lit 1\n",
            "lit 2\n",
            "byte 70 (line 10) is 2, and was 1 at 70 (line 10) of the old image",
        ),
        (
            "r1: int\n",
            "r1: int, r2: int\n",
            "byte 41 (line 6) is 13, and was 12 at 41 (line 6) of the old image",
        ),
        (
            "block 0 quiet -> r0\n    r1",
            "block 0 quiet -> r1\n    r1",
            "byte 63 (line 9) is 1, and was 0 at 63 (line 9) of the old image",
        ),
        (
            "add r0, r1",
            "add r0, r0",
            "byte 85 (line 11) is 0, and was 1 at 85 (line 11) of the old image",
        ),
    ] {
        let new = adding(1).replacen(there, other, 1);
        assert_ne!(new, adding(1));
        for command in ["run", "trace"] {
            let done = changed("differs", command, &adding(1), &[(&new, 1)], &[]);
            let expected = format!("{refused}{words}\n{stands}");
            assert!(done.text().ends_with(&expected), "{}", done.text());
            assert_eq!(
                done.text().lines().count(),
                if command == "run" { 2 } else { 3 }
            );
            assert_eq!((done.status, done.errors.as_str()), (1, ""));
        }
    }
}

#[test]
fn a_version_that_moved_is_named_at_both_places() {
    let added = "version 0.1(r0: int) -> int\n  level portal\n  block 0 quiet -> r0\nversion 1.0";
    let new = adding(2).replace("version 1.0", added);
    let done = changed("moved", "run", &adding(1), &[(&new, 1)], &[]);
    did(
        &done,
        1,
        "new0.fir:9:1: refused by 15 at 64 after 1 step: 1.0 has a live call and differs: \
         byte 93 (line 13) is 2, and was 1 at 70 (line 10) of the old image
old.fir:10:5: at 65 in 1.0, block 0: r1 = lit 1
",
    );
    // The same one may move.
    let new = adding(1).replace("version 1.0", added);
    let done = changed("moved", "run", &adding(1), &[(&new, 1)], &[]);
    assert!(done.text().ends_with("DONE 7 after 9 steps\n"));
}

#[test]
fn a_version_that_is_missing_is_named() {
    let identity = "version 0.0(r0: int) -> int\n  level portal\n  block 0 quiet -> r0\n";
    let caller = "version 0.1(r0: int) -> int\n  level portal\n  block 0 quiet -> r0\n    r0 = call 0.0(r0)\n";
    let old = file("lacking", "old.bin", &image(&format!("{identity}{caller}")));
    let new = file("lacking", "new.bin", &image(identity));
    let then = format!("{new}@1");
    let done = fir(&["run", &old, "0.1", "5", "--then", &then], b"");
    did(
        &done,
        1,
        &format!(
            "{new}: refused by 15 at 23 after 1 step: 0.1 has a live call and is missing
  at 16 in 0.0, block 0: end -> r0
"
        ),
    );
}

#[test]
fn a_new_image_is_put_to_its_own_questions_first() {
    let new = adding(2).replace("call 1.0(r0)\n", "call 3.0(r0)\n");
    let done = changed("own", "run", &adding(1), &[(&new, 1)], &[]);
    assert!(
        done.text()
            .starts_with("new0.fir:4:5: refused by 7 at 23 after 1 step: "),
        "{}",
        done.text()
    );
    assert_eq!(done.status, 1);
    let done = changed("own", "run", &adding(1), &[("", 1)], &[]);
    did(
        &done,
        1,
        "new0.fir: refused by 1 at 0 after 1 step: the image is empty, and has 1 to 32,768 bytes
old.fir:10:5: at 65 in 1.0, block 0: r1 = lit 1
",
    );
}

#[test]
fn an_image_whose_step_is_not_reached_is_named() {
    let new = [(&adding(100)[..], 10), (&adding(100), 11)];
    let done = changed("reached", "run", &adding(1), &new, &[]);
    did(
        &done,
        0,
        "DONE 7 after 9 steps\n  not reached: new0.fir@10\n  not reached: new1.fir@11\n",
    );
    let done = changed("reached", "run", &adding(1), &new[..1], &["--budget", "2"]);
    did(
        &done,
        STEPS,
        "STEPS after 2 steps\nold.fir:11:5: at 78 in 1.0, block 0: r0 = add r0, r1\n  not reached: new0.fir@10\n",
    );
}

#[test]
fn a_budget_that_is_used_up_at_the_step_comes_to_the_change() {
    let done = changed(
        "used",
        "run",
        &adding(1),
        &[(&adding(9), 4)],
        &["--budget", "4"],
    );
    did(
        &done,
        STEPS,
        "after 4 steps: goes on under new0.fir\nSTEPS after 4 steps\nnew0.fir:5:5: at 32 in 0.0, block 0: r0 = call 1.0(r0)\n",
    );
}

#[test]
fn places_are_those_of_the_image_in_force() {
    let shifted = format!("# One line more.\n{}", adding(9));
    let new = [(&shifted[..], 4), (&adding(8), 5)];
    let done = changed("places", "run", &adding(1), &new[..1], &["--budget", "4"]);
    let end = "STEPS after 4 steps\nnew0.fir:6:5: at 32 in 0.0, block 0: r0 = call 1.0(r0)\n";
    assert!(done.text().ends_with(end), "{}", done.text());
    let done = changed("places", "run", &adding(1), &new, &[]);
    did(
        &done,
        1,
        "after 4 steps: goes on under new0.fir
new1.fir:6:1: refused by 15 at 41 after 5 steps: 1.0 has a live call and differs: \
byte 70 (line 10) is 8, and was 9 at 70 (line 11) of the old image
new0.fir:11:5: at 65 in 1.0, block 0: r1 = lit 9
",
    );
}

#[test]
fn an_ended_run_may_go_on_under_another_image_too() {
    let other = "version 0.0(r0: vector) -> vector\n  level portal\n  block 0 quiet -> r0\n";
    let done = changed("ended", "run", &adding(1), &[(other, 9)], &[]);
    did(
        &done,
        0,
        "after 9 steps: goes on under new0.fir\nDONE 7 after 9 steps\n",
    );
    // UNDEF keeps its live calls: the addition at step 3 is out of range.
    let old = adding(i64::MAX);
    let done = changed("ended", "run", &old, &[(other, 3)], &[]);
    let text = done.text();
    let begin = "new0.fir:1:1: refused by 15 at 0 after 3 steps: 0.0 has a live call and differs: ";
    assert!(text.starts_with(begin), "{text}");
    let end = ": r0 = add r0, r1: 5 + 9223372036854775807 is out of range\n";
    assert!(text.ends_with(end), "{text}");
    let done = changed("ended", "run", &old, &[(&old, 3)], &[]);
    let begin = "after 3 steps: goes on under new0.fir\nUNDEF after 3 steps\n";
    assert!(done.text().starts_with(begin), "{}", done.text());
}

#[test]
fn all_files_are_read_before_the_run() {
    let missing = format!("{}/missing/new@1", env!("CARGO_TARGET_TMPDIR"));
    let identity = image("version 0.0(r0: int) -> int\nlevel portal\nblock 0 quiet -> r0");
    let done = fir(&["trace", "-", "0.0", "5", "--then", &missing], &identity);
    let begin = format!("fir: {}: cannot be read: ", &missing[..missing.len() - 2]);
    assert!(done.errors.starts_with(&begin), "{done:?}");
    assert_eq!((done.status, done.text().as_str()), (2, ""));
}

#[test]
fn an_image_may_come_from_standard_input_once() {
    let old = file("input", "old.fir", adding(1).as_bytes());
    let done = fir(
        &["run", &old, "0.0", "5", "--then", "-@4"],
        &image(&adding(9)),
    );
    did(
        &done,
        0,
        "after 4 steps: goes on under standard input\nDONE 15 after 9 steps\n",
    );
    let done = fir(
        &["run", "-", "0.0", "5", "--then", "-@4"],
        &image(&adding(9)),
    );
    let line = "fir run: standard input is named twice; see `fir run --help`\n";
    assert_eq!((done.status, done.errors.as_str()), (2, line));
}

#[test]
fn a_step_that_is_none_is_named() {
    for (word, reason) in [
        (
            "new.fir",
            "`new.fir` is no image and step such as new.fir@100",
        ),
        (
            "new.fir@",
            "`new.fir@` is no image and step such as new.fir@100",
        ),
        ("@4", "`@4` is no image and step such as new.fir@100"),
        (
            "new.fir@-1",
            "`new.fir@-1` is no image and step such as new.fir@100",
        ),
        (
            "new.fir@4294967296",
            "`new.fir@4294967296` is no image and step such as new.fir@100",
        ),
    ] {
        let done = fir(&["run", "a", "0.0", "--then", word], b"");
        let line = format!("fir run: {reason}; see `fir run --help`\n");
        assert_eq!((done.status, done.errors), (2, line));
    }
    let done = fir(&["trace", "a", "0.0", "--then"], b"");
    let line = "fir trace: nothing follows --then; see `fir trace --help`\n";
    assert_eq!((done.status, done.errors.as_str()), (2, line));
    // A name may have a sign of its own.
    let odd = file("sign", "new@7.fir", adding(9).as_bytes());
    let old = file("sign", "old.fir", adding(1).as_bytes());
    let done = fir(
        &["run", &old, "0.0", "5", "--then", &format!("{odd}@4")],
        b"",
    );
    assert!(done.text().ends_with("new@7.fir\nDONE 15 after 9 steps\n"));
}
