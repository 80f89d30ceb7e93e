//! Each command: what it prints, where, and its exit status.

mod support;

use cases::image;
use std::fs;
use support::{did, file, fir, STEPS, STOPPED, UNDEF};

/// The identity on integers.
const IDENTITY: &str = "version 0.0(r0: int) -> int\n  level portal\n  block 0 quiet -> r0\n";

/// Puts the second argument at place 0 of a copy of the first.
const PUT: &str = "
version 0.0(r0: vector, r1: int) -> own vector
  registers r2: own vector, r3: int
  level portal
  block 0 quiet -> r2
    r2 = dup r0
    r3 = lit 0
    set r2[r3] = r1
";

#[test]
fn check_prints_the_report_of_an_accepted_image() {
    let text = file("check", "identity.fir", IDENTITY.as_bytes());
    did(
        &fir(&["check", &text], b""),
        0,
        "0.0 1 0 0 0\naccepted 1\n",
        "",
    );
    let bytes = file("check", "identity.bin", &image(IDENTITY));
    did(
        &fir(&["check", &bytes], b""),
        0,
        "0.0 1 0 0 0\naccepted 1\n",
        "",
    );
    let input = fir(&["check", "-"], &image(IDENTITY));
    did(&input, 0, "0.0 1 0 0 0\naccepted 1\n", "");
}

#[test]
fn a_text_that_does_not_assemble_is_a_no_with_its_line() {
    let text = file(
        "check",
        "wrong.fir",
        b"version 0.0(r0: int) -> int\n\n  r0 = lot 4\n",
    );
    let reason = format!("{text}:3:8: expected an instruction, found `lot`\n");
    did(&fir(&["check", &text], b""), 1, "", &reason);
    did(&fir(&["run", &text, "0.0", "1"], b""), 1, "", &reason);
    did(&fir(&["asm", &text], b""), 1, "", &reason);
    let bytes = file("check", "bytes.fir", b"# one\n# \xFF\n");
    let reason = format!("{bytes}:2:3: not in UTF-8\n");
    did(&fir(&["check", &bytes], b""), 1, "", &reason);
}

#[test]
fn run_prints_what_it_is_done_with_and_its_steps() {
    let identity = image(IDENTITY);
    did(
        &fir(&["run", "-", "0.0", "7"], &identity),
        0,
        "DONE 7 after 1 step\n",
        "",
    );
    did(
        &fir(&["run", "-", "0.0", "-9223372036854775808"], &identity),
        0,
        "DONE -9223372036854775808 after 1 step\n",
        "",
    );
    let put = image(PUT);
    did(
        &fir(&["run", "-", "0.0", "[1,2,3]", "-4"], &put),
        0,
        "DONE [-4, 2, 3] after 4 steps\n",
        "",
    );
    did(
        &fir(&["run", "-", "0.0", "[ 1, -2 ]", "4"], &put),
        0,
        "DONE [4, -2] after 4 steps\n",
        "",
    );
}

#[test]
fn run_says_where_it_stands_unless_it_is_done() {
    let (identity, put) = (image(IDENTITY), image(PUT));
    did(
        &fir(&["run", "-", "0.0", "[]", "4"], &put),
        UNDEF,
        "UNDEF after 3 steps\n  at 45 in 0.0, block 0: set r2[r3] = r1: index 0 is outside of v1 []\n",
        "",
    );
    did(
        &fir(&["run", "-", "0.0", "[1]", "4", "--budget", "1"], &put),
        STEPS,
        "STEPS after 1 step\n  at 32 in 0.0, block 0: r3 = lit 0\n",
        "",
    );
    did(
        &fir(&["run", "--budget", "0", "-", "0.0", "7"], &identity),
        STEPS,
        "STEPS after 0 steps\n  at 16 in 0.0, block 0: end -> r0\n",
        "",
    );
}

#[test]
fn run_prints_the_three_stops() {
    let body = |hoard: &str| {
        image(&format!(
            "version 0.0(r0: int) -> int
               registers r1: vector, r2: vector, r3: vector, r4: quiet promise, r5: quiet promise, r6: quiet promise
               level portal
               block 0 quiet -> r0
                 {hoard}"
        ))
    };
    let deep = fir(&["run", "-", "0.0", "1"], &body("r0 = call 0.0(r0)"));
    did(
        &deep,
        STOPPED,
        "DEEP after 31 steps\n  at 29 in 0.0, block 0: r0 = call 0.0(r0)\n",
        "",
    );
    let vectors = body("r1 = vec []\nr2 = vec []\nr3 = vec []\nr0 = call 0.0(r0)");
    // 21 calls hold 63 vectors, the next makes one more: 21 x 4 + 1 steps.
    let done = fir(&["run", "-", "0.0", "1"], &vectors);
    did(
        &done,
        STOPPED,
        "VECTORS after 85 steps\n  at 35 in 0.0, block 0: r2 = vec []\n",
        "",
    );
    let promises = body(
        "r4 = prom 1\nr5 = prom 2\nr6 = prom 3\nr0 = call 0.0(r0)
         block 1 quiet -> r0\nblock 2 quiet -> r0\nblock 3 quiet -> r0",
    );
    let done = fir(&["run", "-", "0.0", "1"], &promises);
    did(
        &done,
        STOPPED,
        "PROMISES after 85 steps\n  at 35 in 0.0, block 0: r5 = prom 2\n",
        "",
    );
}

#[test]
fn a_run_that_is_refused_says_why() {
    let image = image(
        "version 0.0(r0: int, r1: vector) -> int
           level portal
           block 0 quiet -> r0
         version 0.1(r0: quiet promise) -> int
           registers r1: int
           level portal
           block 0 quiet -> r1
             r1 = lit 1
         version 1.0(r0: own vector) -> own vector
           level portal
           block 0 quiet -> r0",
    );
    let seventeen = format!("[{}]", ["1"; 17].join(","));
    let cases: [(&[&str], &str); 9] = [
        (&["0.2"], "11 at 0: there is no version 0.2, function 0 has 2 versions"),
        (&["2.0"], "11 at 0: there is no function 2, the last function is 1"),
        (&["99999999999.0"], "11 at 0: there is no function 99999999999, the last function is 1"),
        (&["0.0", "[1,2]", "[]"], "12 at 0: parameter r0 of 0.0 is an integer, and got the vector [1, 2]"),
        (&["0.0", "1", "-2"], "12 at 0: parameter r1 of 0.0 is a shared vector, and got the integer -2"),
        (&["0.0", "1"], "12 at 0: 0.0 has 2 parameters, and got 1 argument"),
        (&["1.0", "[1]", "[]"], "12 at 0: 1.0 has 1 parameter, and got 2 arguments"),
        (&["0.1", "1"], "12 at 0: parameter r0 of 0.1 is a quiet promise, which no argument matches, and got the integer 1"),
        (&["1.0", &seventeen], "12 at 0: parameter r0 of 1.0 got a vector of 17 items, and 16 are the most"),
    ];
    for (words, line) in cases {
        for command in ["run", "trace"] {
            let call = [&[command, "-"], words].concat();
            did(&fir(&call, &image), 1, &format!("refused by {line}\n"), "");
        }
    }
    let refused = fir(&["run", "-", "0.0"], &image[..23]);
    assert!(
        refused.text().starts_with("refused by 2 at 17: a BLOCK"),
        "{refused:?}"
    );
    assert_eq!(refused.status, 1);
}

#[test]
fn asm_and_dis_go_both_ways_and_write_to_a_file() {
    let text = file("convert", "identity.text", IDENTITY.as_bytes());
    let done = fir(&["asm", &text], b"");
    assert_eq!(done.output, image(IDENTITY));
    assert_eq!(
        fir(&["asm", "-"], IDENTITY.as_bytes()).output,
        image(IDENTITY)
    );
    let out = file("convert", "identity.bin", b"old");
    did(&fir(&["asm", &text, "-o", &out], b""), 0, "", "");
    assert_eq!(fs::read(&out).expect("it was written"), image(IDENTITY));
    did(&fir(&["dis", &out], b""), 0, IDENTITY, "");
    let back = file("convert", "back.fir", b"old");
    did(&fir(&["dis", "-o", &back, &out], b""), 0, "", "");
    assert_eq!(fs::read_to_string(&back).expect("it was written"), IDENTITY);
}

#[test]
fn files_that_cannot_be_read_or_written_are_named() {
    let folder = env!("CARGO_TARGET_TMPDIR");
    let missing = format!("{folder}/missing/image");
    for command in ["check", "dis", "asm"] {
        let done = fir(&[command, &missing], b"");
        let begin = format!("fir: {missing}: cannot be read: ");
        assert!(done.errors.starts_with(&begin), "{done:?}");
        assert_eq!((done.status, done.text().as_str()), (2, ""));
    }
    let done = fir(&["check", folder], b"");
    assert!(done.errors.contains(": cannot be read: "), "{done:?}");
    assert_eq!(done.status, 2);
    let done = fir(&["asm", "-", "-o", &missing], IDENTITY.as_bytes());
    let begin = format!("fir: {missing}: cannot be written: ");
    assert!(done.errors.starts_with(&begin), "{done:?}");
    assert_eq!(done.status, 2);
    let done = fir(&["check", "-"], &vec![0; (16 << 20) + 1]);
    did(
        &done,
        2,
        "",
        "fir: standard input: has more than 16777216 bytes\n",
    );
}

#[test]
fn bad_usage_is_named() {
    let cases: [(&[&str], &str); 15] = [
        (&[], "fir: no command is given; see `fir --help`"),
        (&["chek"], "fir: `chek` is no command; see `fir --help`"),
        (&["check"], "fir check: no file is named; see `fir check --help`"),
        (&["dis", "a", "b"], "fir dis: `b` is one too many; see `fir dis --help`"),
        (&["check", "--all"], "fir check: `--all` is no option; see `fir check --help`"),
        (&["run", "a"], "fir run: no version is named, such as 0.0; see `fir run --help`"),
        (&["run", "a", "0"], "fir run: `0` names no version; write one such as 0.0; see `fir run --help`"),
        (&["run", "a", "0.x"], "fir run: `0.x` names no version; write one such as 0.0; see `fir run --help`"),
        (&["run", "a", "0.0", "x"], "fir run: `x` is no integer of -9223372036854775808 to 9223372036854775807; write 7, -7 or [1,2,3]; see `fir run --help`"),
        (&["run", "a", "0.0", "[1,2"], "fir run: `[1,2` has no `]` at its end; see `fir run --help`"),
        (&["run", "a", "0.0", "[1,,2]"], "fir run: `` is no integer of -9223372036854775808 to 9223372036854775807; write 7, -7 or [1,2,3]; see `fir run --help`"),
        (&["trace", "a", "0.0", "9223372036854775808"], "fir trace: `9223372036854775808` is no integer of -9223372036854775808 to 9223372036854775807; write 7, -7 or [1,2,3]; see `fir trace --help`"),
        (&["run", "a", "0.0", "--budget"], "fir run: nothing follows --budget; see `fir run --help`"),
        (&["run", "a", "0.0", "--budget", "4294967296"], "fir run: `4294967296` is no budget of 0 to 4294967295; see `fir run --help`"),
        (&["asm", "a", "-o", "b", "-o", "c"], "fir asm: -o stands twice; see `fir asm --help`"),
    ];
    for (arguments, line) in cases {
        did(&fir(arguments, b""), 2, "", &format!("{line}\n"));
    }
}

#[test]
fn help_is_there_for_everything() {
    let all = fir(&["--help"], b"");
    assert_eq!((all.status, all.errors.as_str()), (0, ""));
    assert_eq!(fir(&["-h"], b"").output, all.output);
    assert_eq!(fir(&["help"], b"").output, all.output);
    for command in ["check", "run", "trace", "asm", "dis"] {
        assert!(
            all.text().contains(&format!("  fir {command} FILE")),
            "{command}"
        );
        let help = fir(&[command, "--help"], b"");
        assert_eq!((help.status, help.errors.as_str()), (0, ""));
        assert!(help
            .text()
            .starts_with(&format!("usage: fir {command} FILE")));
        assert_eq!(fir(&[command, "a", "b", "-h"], b"").output, help.output);
    }
    assert!(fir(&["run", "--help"], b"").text().contains("10,000,000"));
    assert!(fir(&["trace", "--help"], b"").text().contains("100,000"));
}
