//! What people meet first: help, options in both spellings, texts on standard input,
//! several files, and messages that editors can follow.

mod support;

use support::{file, fir, STEPS, STOPPED, UNDEF};

/// The identity on integers.
const IDENTITY: &str = "version 0.0(r0: int) -> int\n  level portal\n  block 0 quiet -> r0\n";

/// A version with its registers, and its instructions up to the next block.
fn script(registers: &str, body: &str) -> String {
    format!("version 0.0(r0: int) -> int\n{registers}  level portal\n  block 0 quiet -> r0\n{body}")
}

#[test]
fn a_text_on_standard_input_is_taken_as_text() {
    let done = fir(&["check", "-"], IDENTITY.as_bytes());
    assert_eq!(done.text(), "0.0 1 0 0 0\naccepted 1\n");
    let done = fir(&["run", "-", "0.0", "7"], IDENTITY.as_bytes());
    assert_eq!(done.text(), "DONE 7 after 1 step\n");
    let wrong = script("", "    r0 = lot 4\n");
    let done = fir(&["check", "-"], wrong.as_bytes());
    let line = "standard input:4:10: expected an instruction, found `lot`\n";
    assert_eq!((done.errors.as_str(), done.status), (line, 1));
    let done = fir(&["check", "-"], b"");
    assert!(done.text().starts_with("refused by 1 at 0: "), "{done:?}");
}

#[test]
fn a_text_is_taken_as_text_whatever_its_name() {
    for name in ["identity.txt", "identity", "identity.bin"] {
        let text = file("names", name, IDENTITY.as_bytes());
        let done = fir(&["run", &text, "0.0", "7"], b"");
        assert_eq!(done.text(), "DONE 7 after 1 step\n", "{name}");
    }
    let image = fir(&["asm", "-"], IDENTITY.as_bytes()).output;
    let image = file("names", "image.txt", &image);
    let done = fir(&["run", &image, "0.0", "7"], b"");
    assert_eq!(done.text(), "DONE 7 after 1 step\n");
}

#[test]
fn a_byte_order_mark_before_a_text_is_passed_over() {
    let marked = format!("\u{feff}{IDENTITY}");
    for name in ["marked.fir", "marked.txt"] {
        let text = file("names", name, marked.as_bytes());
        let done = fir(&["check", &text], b"");
        assert_eq!(done.text(), "0.0 1 0 0 0\naccepted 1\n", "{name}");
    }
    let image = fir(&["asm", "-"], marked.as_bytes()).output;
    assert_eq!(image, fir(&["asm", "-"], IDENTITY.as_bytes()).output);
    let done = fir(&["check", "-"], "\u{feff}verson".as_bytes());
    let place = "standard input:1:1: ";
    assert!(done.errors.starts_with(place), "{}", done.errors);
}

#[test]
fn help_takes_a_command() {
    for command in ["check", "run", "completion"] {
        let help = fir(&["help", command], b"");
        assert_eq!(help.text(), fir(&[command, "--help"], b"").text());
        assert!(help.text().starts_with(&format!("usage: fir {command} ")));
    }
    let done = fir(&["help", "chek"], b"");
    let line = "fir: `chek` is no command; see `fir --help`\n";
    assert_eq!((done.errors.as_str(), done.status), (line, 2));
}

#[test]
fn an_option_takes_its_value_behind_it_or_behind_an_equals_sign() {
    let text = file("options", "identity.fir", IDENTITY.as_bytes());
    let expected = fir(&["run", &text, "0.0", "7", "--budget", "0"], b"");
    assert_eq!(expected.status, STEPS);
    for words in [
        &["--budget=0", &text, "0.0", "7"][..],
        &[&text, "0.0", "--budget=0", "7"],
        &["--budget=0", "--", &text, "0.0", "7"],
    ] {
        let done = fir(&[&["run"], words].concat(), b"");
        assert_eq!(done.text(), expected.text(), "{words:?}");
    }
    let then = format!("--then={text}@0");
    let done = fir(&["run", &text, "0.0", "7", &then], b"");
    assert!(done.text().ends_with("DONE 7 after 1 step\n"), "{done:?}");
    for (words, reason) in [
        (
            &["run", "--stats=3", "a", "0.0"][..],
            "fir run: --stats takes no value",
        ),
        (
            &["run", "a", "0.0", "--stat"],
            "fir run: `--stat` is no option",
        ),
        (&["run", "a", "0.0", "-x"], "fir run: `-x` is no option"),
        (
            &["run", "a", "0.0", "--budget="],
            "fir run: `` is no budget of 0 to 4294967295",
        ),
        (
            &["check", "a", "--form=16"],
            "fir check: --form is 32 or 64, not `16`",
        ),
    ] {
        let done = fir(words, b"");
        assert!(done.errors.starts_with(reason), "{words:?}: {done:?}");
        assert_eq!(done.status, 2);
    }
}

#[test]
fn the_version_is_printed() {
    let done = fir(&["--version"], b"");
    let version = format!(
        "fir {}\nlibrary: interface {}, layout of a state {}\n",
        env!("CARGO_PKG_VERSION"),
        library::FIR_INTERFACE,
        library::FIR_STATE_LAYOUT
    );
    assert_eq!((done.text(), done.status), (version, 0));
}

/// What `fir check` prints of a text, without the text's folder.
fn checked(name: &str, text: &str) -> String {
    let file = file("people", name, text.as_bytes());
    let folder = file.strip_suffix(name).expect("its name").to_string();
    let done = fir(&["check", &file, "--no-mend"], b"");
    done.text().replace(&folder, "")
}

#[test]
fn question_6_says_the_type_as_the_text_does_and_where_its_register_is_declared() {
    let one = script("  registers r1: own int\n", "");
    assert_eq!(
        checked("one.fir", &one),
        "one.fir:2:13: refused by 6 at 0: the type of r1 of VERSION 0.0 is own int, \
         and only a vector is owned or borrowed\n"
    );
    let second = script(
        "  # Registers.\n  registers r1: int\n  registers r2: int, r3 : borrow vector # r3: int\n",
        "",
    );
    assert_eq!(
        checked("second.fir", &second),
        "second.fir:4:22: refused by 6 at 0: the type of r3 of VERSION 0.0 is borrowed, \
         and only parameters are\n"
    );
    let parameter = IDENTITY.replace("r0: int", "r0: own value");
    assert_eq!(
        checked("parameter.fir", &parameter),
        "parameter.fir:1:13: refused by 6 at 0: the type of r0 of VERSION 0.0 is own value, \
         and only a vector is owned or borrowed\n"
    );
    let returned = IDENTITY.replace("-> int", "-> any");
    assert!(checked("returned.fir", &returned).starts_with("returned.fir:1:1: refused by 6 at 0: "));
}

#[test]
fn question_10_names_the_prom_of_a_promise_block() {
    let registers = "  registers r1: int, r2: quiet promise\n";
    let unassigned = script(registers, "    r2 = prom 1\n  block 1 quiet -> r1\n");
    assert_eq!(
        checked("unassigned.fir", &unassigned),
        "unassigned.fir:5:5: refused by 10 at 0: in VERSION 0.0, r1 is read by the end of \
         BLOCK 1 at 31 (line 6), and not assigned before PROM at 25 (line 5)\n"
    );
}

#[test]
fn question_10_says_that_a_forced_blocks_assignment_does_not_count() {
    let registers = "  registers r1: int, r2: quiet promise\n";
    let body = "    r2 = prom 1\n    r0 = force r2\n    r0 = add r0, r1\n";
    let forced = script(
        registers,
        &format!("{body}  block 1 quiet -> r1\n    r1 = lit 4\n"),
    );
    assert_eq!(
        checked("forced.fir", &forced),
        "forced.fir:7:5: refused by 10 at 0: in VERSION 0.0, r1 is read by ARITH add at 37 \
         (line 7) before it is assigned; that LIT at 52 (line 9) in block 1 assigns it does \
         not count for what follows a FORCE\n"
    );
}

#[test]
fn what_is_missing_at_the_end_of_a_text_is_named_at_its_last_line() {
    let text =
        "version 0.0(r0: int) -> int blocks=2\n  level portal\n  block 0 quiet -> r0\n# The end.\n";
    let line = checked("short.fir", text);
    assert!(
        line.starts_with("short.fir:4:1: refused by 4 at "),
        "{line}"
    );
}

#[test]
fn a_text_that_does_not_assemble_is_named_with_the_column() {
    for (text, place) in [
        ("  version 0.0(r0: int) -> itn\n", "1:27: expected a type"),
        (
            "version 0.0(r0: int) -> int\n  block 1 quiet -> r0\n",
            "2:3: this is block 0",
        ),
        ("\tregisters r0: int\n", "1:2: registers stand right after"),
        ("version 0.0(r1: int) -> int\n", "1:13: expected r0 here"),
        (
            "version 0.0(r0: int, r0: int) -> int\n",
            "1:22: expected r1 here, found `r0`",
        ),
        (
            "version 0.0(r0: int) -> int\n  registers r1: int, r1: int\n",
            "2:22: expected r2 here, found `r1`",
        ),
        (
            "version 0.0(r0: int) -> int\n  registers r2: int\n",
            "2:13: expected r1 here, found `r2`",
        ),
        (
            "version 0.0() -> int\n block 0 quiet -> r0\n  r0 = add r0 r0 # é\n",
            "3:15: expected `,`",
        ),
    ] {
        let file = file("columns", "wrong.fir", text.as_bytes());
        let done = fir(&["check", &file], b"");
        let begin = format!("{file}:{place}");
        assert!(done.errors.starts_with(&begin), "{text}: {done:?}");
        assert_eq!(done.status, 1);
    }
}

#[test]
fn several_files_get_a_line_each_and_a_count() {
    let good = file("several", "good.fir", IDENTITY.as_bytes());
    let bad = file(
        "several",
        "bad.fir",
        script("", "    set r0[r0] = r0\n").as_bytes(),
    );
    let cut = file("several", "cut.bin", &[11, 0, 1]);
    let wrong = file("several", "wrong.fir", b"verson\n");
    let done = fir(&["check", &good, &bad, &cut, &good], b"");
    let text = done.text();
    let lines: Vec<&str> = text.lines().collect();
    assert_eq!(lines[0], format!("{good}: accepted 1"));
    assert!(
        lines[1].starts_with(&format!("{bad}:4:5: refused by 8 at ")),
        "{text}"
    );
    assert!(
        lines[2].starts_with(&format!("{cut}: refused by 2 at 0: ")),
        "{text}"
    );
    assert_eq!(lines[4], "2 accepted, 2 refused");
    assert_eq!((done.status, done.errors.as_str()), (1, ""));
    let done = fir(&["check", &wrong, "missing", &good], b"");
    assert!(
        done.errors.starts_with(&format!("{wrong}:1:1: ")),
        "{done:?}"
    );
    assert!(
        done.errors.contains("fir: missing: cannot be read: "),
        "{done:?}"
    );
    assert!(done.text().ends_with("1 accepted, 1 refused, 1 not read\n"));
    assert_eq!(done.status, 2);
    assert_eq!(fir(&["check", &good, &good], b"").status, 0);
    let done = fir(&["check", "-", "-"], b"");
    assert!(
        done.errors.contains("standard input is named twice"),
        "{done:?}"
    );
}

#[test]
fn the_exit_status_tells_refused_undefined_stopped_and_used_up_apart() {
    let divide = script("", "    r0 = div r0, r0\n");
    let deep = script("", "    r0 = call 0.0(r0)\n");
    for (text, words, status) in [
        (IDENTITY, &["0.0", "7"][..], 0),
        (IDENTITY, &["9.0", "7"], 1),
        (IDENTITY, &["0.0", "7", "--budget", "-1"], 2),
        (&divide, &["0.0", "0"], UNDEF),
        (&deep, &["0.0", "0"], STOPPED),
        (&deep, &["0.0", "0", "--budget=4"], STEPS),
    ] {
        for command in ["run", "trace"] {
            let done = fir(&[&[command, "-"], words].concat(), text.as_bytes());
            assert_eq!(done.status, status, "{command} {words:?}: {done:?}");
        }
    }
}

#[test]
fn the_status_of_a_run_is_in_the_help() {
    for command in ["run", "trace"] {
        let help = fir(&["help", command], b"").text();
        for words in [
            "0 DONE",
            "1 refused",
            "2 bad usage",
            "3 UNDEF",
            "4 a stop",
            "5 the budget",
        ] {
            assert!(help.contains(words), "{command}: {words}");
        }
    }
}
