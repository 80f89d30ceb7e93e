//! `--stats`: the sums of steps, calls and searches, and the bound of the entry.

mod support;

use cases::image;
use support::{file, fir, Done, STEPS, STOPPED, UNDEF};

/// 0.0 calls 2.0, which dispatches on function 1 twice: with its argument, which
/// fits version 1 of three, and with nothing, which fits version 2.
const TEXT: &str = "
version 0.0(r0: int) -> int
  level portal
  block 0 quiet -> r0
    r0 = call 2.0(r0)
version 1.0(r0: vector) -> int
  registers r1: int
  level portal
  block 0 quiet -> r1
    r1 = len r0
version 1.1(r0: int) -> int
  level portal
  block 0 quiet -> r0
version 1.2() -> int
  registers r0: int
  level portal
  block 0 quiet -> r0
    r0 = lit 3
version 2.0(r0: int) -> int
  registers r1: int
  level portal
  block 0 quiet -> r0
    r1 = dispatch 1(r0: int) -> int quiet
    r0 = dispatch 1() -> int quiet
    r0 = add r0, r1
";

/// Asserts what a command did, without complaints.
#[track_caller]
fn did(done: &Done, status: u8, output: &str) {
    assert_eq!(done.text(), output);
    assert_eq!((done.status, done.errors.as_str()), (status, ""));
}

/// Runs 0.0 of the text with 4.
fn run(rest: &[&str]) -> Done {
    fir(&[&["run", "-", "0.0", "4"], rest].concat(), &image(TEXT))
}

#[test]
fn the_sums_follow_the_result() {
    // CALL, DISPATCH, end, DISPATCH, LIT, end, ADD, end, end.
    did(
        &run(&["--stats"]),
        0,
        "DONE 7 after 9 steps
  steps: 9 of at most 10
  calls: 3
  DISPATCH steps: 2, looked at 5 of 6 versions
",
    );
    let first = fir(&["run", "--stats", "-", "0.0", "4"], &image(TEXT));
    assert_eq!(first.output, run(&["--stats"]).output);
    did(&run(&[]), 0, "DONE 7 after 9 steps\n");
}

#[test]
fn a_budget_counts_the_steps_that_were_taken() {
    let stands = "  at 145 in 2.0, block 0: r1 = dispatch 1(r0: int) -> int quiet\n";
    did(
        &run(&["--stats", "--budget", "1"]),
        STEPS,
        &format!(
            "STEPS after 1 step\n{stands}  steps: 1 of at most 10
  calls: 1
  DISPATCH steps: 0, looked at 0 of 0 versions
"
        ),
    );
    let two = run(&["--stats", "--budget", "2"]).text();
    assert!(
        two.ends_with("  DISPATCH steps: 1, looked at 2 of 3 versions\n"),
        "{two}"
    );
    let none = run(&["--stats", "--budget", "0"]).text();
    let sums = "\n  steps: 0 of at most 10\n  calls: 0\n";
    assert!(none.contains(sums), "{none}");
}

#[test]
fn a_dispatch_without_a_fit_is_a_step_and_one_that_is_deep_is_none() {
    let misfit = "version 0.0(r0: int) -> int
                    level portal
                    block 0 quiet -> r0
                      r0 = dispatch 1() -> int quiet
                  version 1.0(r0: int) -> int
                    level portal
                    block 0 quiet -> r0
                  version 1.1(r0: vector) -> int
                    registers r1: int
                    level portal
                    block 0 quiet -> r1
                      r1 = len r0";
    did(
        &fir(&["run", "-", "0.0", "4", "--stats"], &image(misfit)),
        UNDEF,
        "UNDEF after 1 step
  at 23 in 0.0, block 0: r0 = dispatch 1() -> int quiet: no version of function 1 fits: 1.0 has 1 parameter, and 0 arguments are given; 1.1 has 1 parameter, and 0 arguments are given
  steps: 1 of at most 2
  calls: 0
  DISPATCH steps: 1, looked at 2 of 2 versions
",
    );
    let deep = "version 0.0(r0: int) -> int
                  level portal
                  block 0 quiet -> r0
                    r0 = dispatch 0(r0: int) -> int quiet";
    did(
        &fir(&["run", "-", "0.0", "4", "--stats"], &image(deep)),
        STOPPED,
        "DEEP after 31 steps
  at 23 in 0.0, block 0: r0 = dispatch 0(r0: int) -> int quiet
  steps: 31, no bound is given
  calls: 31
  DISPATCH steps: 31, looked at 31 of 31 versions
",
    );
}

#[test]
fn a_run_that_goes_on_under_another_image_counts_on() {
    let old = file("stats", "old.fir", TEXT.as_bytes());
    // Function 1 has one version less in the new image: CALL, DISPATCH and its
    // end are done, and the second DISPATCH looks at 2 of 2.
    let new = TEXT.replace(
        "version 1.0(r0: vector) -> int
  registers r1: int
  level portal
  block 0 quiet -> r1
    r1 = len r0
version 1.1(",
        "version 1.0(",
    );
    let new = file("stats", "new.fir", new.replace("1.2", "1.1").as_bytes());
    let then = |step: &str| {
        let then = format!("{new}@{step}");
        fir(&["run", &old, "0.0", "4", "--then", &then, "--stats"], b"")
    };
    did(
        &then("3"),
        0,
        &format!(
            "after 3 steps: goes on under {new}
DONE 7 after 9 steps
  steps: 9
  calls: 3
  DISPATCH steps: 2, looked at 4 of 5 versions
"
        ),
    );
    // 1.1 is live after 2 steps, and differs: the sums are those so far.
    let refused = then("2");
    assert_eq!(refused.status, 1);
    let (text, sums) = (
        refused.text(),
        "  steps: 2 of at most 10
  calls: 2
  DISPATCH steps: 1, looked at 2 of 3 versions
",
    );
    assert!(text.contains(": refused by 15 at "), "{text}");
    assert!(text.ends_with(sums), "{text}");
    // A step that is not reached.
    let text = then("10").text();
    let left = format!("  not reached: {new}@10\n  steps: 9 of at most 10\n");
    assert!(text.contains(&left), "{text}");
}

#[test]
fn a_run_that_is_refused_has_no_sums() {
    let done = fir(&["run", "-", "3.0", "--stats"], &image(TEXT));
    did(
        &done,
        1,
        "refused by 11 at 0: there is no function 3, the last function is 2\n",
    );
}

#[test]
fn a_trace_has_the_same_sums_behind_its_steps() {
    let sums = run(&["--stats"]).text();
    let trace = fir(&["trace", "-", "0.0", "4", "--stats"], &image(TEXT));
    assert!(trace.text().ends_with(&sums), "{}", trace.text());
    let plain = fir(&["trace", "-", "0.0", "4"], &image(TEXT)).text();
    assert!(plain.ends_with("DONE 7 after 9 steps\n"), "{plain}");
    let page = file("stats", "page.html", b"");
    let html = format!("--html={page}");
    let done = fir(&["trace", "-", "0.0", "4", "--stats", &html], &image(TEXT));
    assert_eq!(done.text(), sums);
}

#[test]
fn the_option_stands_once_and_at_run_and_trace_alone() {
    for (words, line) in [
        (
            &["run", "a", "0.0", "--stats", "--stats"][..],
            "fir run: --stats stands twice; see `fir run --help`\n",
        ),
        (
            &["debug", "--stats", "a", "0.0"],
            "fir debug: `--stats` is no option; see `fir debug --help`\n",
        ),
    ] {
        let done = fir(words, b"");
        assert_eq!((done.status, done.errors.as_str()), (2, line));
    }
    let help = fir(&["run", "--help"], b"").text();
    assert!(help.contains("DISPATCH steps: 2, looked at 5 of 8 versions"));
}
