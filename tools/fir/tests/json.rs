//! `--json`: what check, run and trace print for programs to read.

mod support;

use support::json::Value;
use support::{file, fir, STEPS, UNDEF};

/// Adds an integer to the item of a vector at place 0, by a call.
const ADDING: &str = "\
version 0.0(r0: vector, r1: int) -> int
  registers r2: int
  level portal
  block 0 quiet -> r2
    r2 = call 1.0(r0)
    r2 = add r2, r1
version 1.0(r0: vector) -> int
  registers r1: int
  level portal
  block 0 quiet -> r1
    r1 = lit 0
    r1 = get r0[r1]
";

/// Asserts the lines that a command on `ADDING` prints, and its status.
#[track_caller]
fn prints(words: &[&str], lines: &[&str], status: u8) {
    let done = fir(words, ADDING.as_bytes());
    let text = done.text();
    assert_eq!(text.lines().collect::<Vec<_>>(), lines);
    assert_eq!((done.status, done.errors.as_str()), (status, ""));
    for line in lines {
        assert!(matches!(Value::of(line), Value::Object(_)), "{line}");
    }
}

#[test]
fn check_prints_an_object_for_each_file() {
    prints(
        &["check", "-", "--json"],
        &[
            r#"{"file":"standard input","accepted":true,"versions":[{"version":"0.0","read":2,"assigned":1,"emptied":0,"captured":0},{"version":"1.0","read":1,"assigned":1,"emptied":0,"captured":0}]}"#,
        ],
        0,
    );
    let bad = ADDING.replace("get r0[r1]", "get r1[r1]");
    let bad = file("json", "bad.fir", bad.as_bytes());
    let wrong = file("json", "wrong.fir", b"\n verson \"<\n");
    let done = fir(
        &["check", "--json", "--no-mend", &bad, &wrong, "missing"],
        b"",
    );
    let text = done.text();
    let lines: Vec<&str> = text.lines().collect();
    let begin = format!(r#"{{"file":"{bad}","accepted":false,"question":8,"offset":"#);
    assert!(lines[0].starts_with(&begin), "{text}");
    let end = r#","line":12,"column":5,"words":"GET needs a vector, r1 is an integer"}"#;
    assert!(lines[0].ends_with(end), "{text}");
    let begin = format!(r#"{{"file":"{wrong}","accepted":false,"line":2,"column":2,"words":"#);
    assert!(lines[1].starts_with(&begin), "{text}");
    assert!(lines[1].ends_with(r#"found `verson`"}"#), "{text}");
    assert!(lines
        .iter()
        .all(|line| matches!(Value::of(line), Value::Object(_))));
    let begin = r#"{"file":"missing","accepted":false,"error":"missing: cannot be read: "#;
    assert!(lines[2].starts_with(begin), "{text}");
    assert_eq!((lines.len(), done.status, done.errors.as_str()), (3, 2, ""));
}

#[test]
fn run_prints_its_result() {
    prints(
        &["run", "-", "0.0", "[5]", "-7", "--json"],
        &[r#"{"result":"DONE","steps":6,"value":-2}"#],
        0,
    );
    prints(
        &["run", "-", "0.0", "[5]", "-7", "--json", "--stats"],
        &[
            r#"{"result":"DONE","steps":6,"value":-2,"stats":{"steps":6,"bound":6,"calls":1,"dispatches":0,"looked_at":0,"of_versions":0}}"#,
        ],
        0,
    );
    let identity = "version 0.0(r0: vector) -> vector\n  level portal\n  block 0 quiet -> r0\n";
    let done = fir(
        &["run", "-", "0.0", "[5,-9223372036854775808]", "--json"],
        identity.as_bytes(),
    );
    let line = r#"{"result":"DONE","steps":1,"value":[5,-9223372036854775808]}"#;
    assert_eq!(done.text(), format!("{line}\n"));
}

#[test]
fn run_prints_where_it_stands_and_why_it_is_refused() {
    let done = fir(&["run", "-", "0.0", "[]", "1", "--json"], ADDING.as_bytes());
    let text = done.text();
    assert!(
        text.starts_with(r#"{"result":"UNDEF","steps":3,"offset":"#),
        "{text}"
    );
    let end = r#","line":12,"column":5,"version":"1.0","block":0,"text":"r1 = get r0[r1]","cause":"index 0 is outside of v0 []"}"#;
    assert!(text.trim_end().ends_with(end), "{text}");
    assert_eq!(done.status, UNDEF);
    prints(
        &["run", "-", "0.0", "1", "1", "--json"],
        &[
            r#"{"result":"refused","question":12,"offset":0,"words":"parameter r0 of 0.0 is a shared vector, and got the integer 1"}"#,
        ],
        1,
    );
}

#[test]
fn a_file_without_an_image_is_an_object_of_run_trace_and_lint_too() {
    let wrong = file("json", "unread.fir", b"\n verson\n");
    let (good, later) = (
        file("json", "good.fir", ADDING.as_bytes()),
        format!("{wrong}@0"),
    );
    let call = ["0.0", "[5]", "1", "--json"];
    let unread = |words: &[&str], begin: &str, status: u8| {
        let done = fir(words, b"");
        let text = done.text();
        assert!(text.starts_with(begin), "{text}");
        assert!(matches!(Value::of(text.trim_end()), Value::Object(_)));
        assert_eq!((done.status, done.errors.as_str()), (status, ""));
    };
    let fields = |name: &str| format!(r#""file":"{wrong}",{name}"line":2,"column":2,"words":""#);
    let failed = format!(r#"{{"result":"failed",{}"#, fields(""));
    unread(&[&["run", &wrong], &call[..]].concat(), &failed, 1);
    unread(&[&["trace", &wrong], &call[..]].concat(), &failed, 1);
    let then = [&["run", &good], &call[..], &["--then", &later]].concat();
    unread(&then, &failed, 1);
    let failed = format!("{{{}", fields(r#""lint":"failed","#));
    unread(&["lint", &wrong, "--json"], &failed, 1);
    let error = r#""error":"missing: cannot be read: "#;
    let failed = format!(r#"{{"result":"failed","file":"missing",{error}"#);
    unread(&[&["run", "missing"], &call[..]].concat(), &failed, 2);
    let failed = format!(r#"{{"file":"missing","lint":"failed",{error}"#);
    unread(&["lint", "missing", "--json"], &failed, 2);
}

#[test]
fn a_change_of_the_image_is_an_object() {
    let old = file("json", "old.fir", ADDING.as_bytes());
    let new = file(
        "json",
        "new.fir",
        ADDING.replace("lit 0", "lit 1").as_bytes(),
    );
    let (taken, refused) = (format!("{new}@0"), format!("{new}@1"));
    let call = ["run", &old, "0.0", "[5,6]", "1", "--json", "--then"];
    let done = fir(&[&call[..], &[&taken]].concat(), b"");
    let lines = format!(
        "{}\n{}\n",
        format_args!(r#"{{"step":0,"image":"{new}","taken":true}}"#),
        r#"{"result":"DONE","steps":6,"value":7}"#
    );
    assert_eq!(done.text(), lines);
    let done = fir(&[&call[..], &[&refused]].concat(), b"");
    let begin = format!(r#"{{"step":1,"image":"{new}","taken":false,"question":15,"offset":"#);
    assert!(done.text().starts_with(&begin), "{}", done.text());
    let last = done.text().lines().last().unwrap_or_default().to_string();
    assert!(
        last.starts_with(r#"{"result":"refused","steps":1,"offset":"#),
        "{last}"
    );
    assert_eq!(done.status, 1);
    let late = format!("{new}@9");
    let done = fir(&[&call[..], &[&late]].concat(), b"");
    let end = format!(r#","not_reached":["{new}@9"]}}"#);
    assert!(done.text().trim_end().ends_with(&end), "{}", done.text());
}

#[test]
fn trace_prints_an_object_for_each_step() {
    let call = ["trace", "-", "0.0", "[5]", "2", "--json", "--budget=2"];
    let done = fir(&call, ADDING.as_bytes());
    let text = done.text();
    let lines: Vec<&str> = text.lines().collect();
    assert_eq!(lines.len(), 3, "{text}");
    assert!(
        lines[0].starts_with(r#"{"step":1,"depth":1,"offset":"#),
        "{text}"
    );
    let end = r#","line":5,"column":5,"version":"0.0","block":0,"text":"r2 = call 1.0(r0)","did":"opens call 1 of 1.0 with r0 = v0 [5]"}"#;
    assert!(lines[0].ends_with(end), "{text}");
    assert!(lines[1].starts_with(r#"{"step":2,"depth":2,"#), "{text}");
    assert!(
        lines[2].starts_with(r#"{"result":"STEPS","steps":2,"#),
        "{text}"
    );
    assert_eq!(done.status, STEPS);
}
