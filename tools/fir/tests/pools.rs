//! `fir pool`: plans of runs that share their vectors.

mod support;

use support::{did, fir, folder, put, Done, STEPS, STOPPED, UNDEF};

/// A script that makes a vector for each of two registers and gives 7: 4 steps.
const TWO: &str = "version 0.0() -> int
  registers r0: int, r1: vector, r2: vector
  level portal
  block 0 quiet -> r0
    r0 = lit 7
    r1 = vec [r0]
    r2 = dup r1
";

/// The same with another version behind it.
const TWO_AND_MORE: &str = "version 0.0() -> int
  registers r0: int, r1: vector, r2: vector
  level portal
  block 0 quiet -> r0
    r0 = lit 7
    r1 = vec [r0]
    r2 = dup r1
version 1.0(r0: vector, r1: vector) -> vector
  level staff
  block 0 quiet -> r0
";

/// A script that divides by 0.
const BROKEN: &str = "version 0.0(r0: int) -> int
  registers r1: int
  level portal
  block 0 quiet -> r0
    r1 = lit 0
    r0 = div r0, r1
";

/// What `fir pool` does with a plan, beside the scripts; names of files are those in its
/// folder.
fn pool(test: &str, plan: &str, options: &[&str]) -> Done {
    let folder = folder("pools", test);
    put(&folder, "two.fir", TWO.as_bytes());
    put(&folder, "more.fir", TWO_AND_MORE.as_bytes());
    put(&folder, "broken.fir", BROKEN.as_bytes());
    let plan = put(&folder, "plan", plan.as_bytes());
    let mut done = fir(&[&["pool", &plan], options].concat(), b"");
    let place = format!("{folder}/");
    done.output = done.text().replace(&place, "").into_bytes();
    done.errors = done.errors.replace(&place, "");
    done
}

/// The lines that are printed.
fn lines(done: &Done) -> Vec<String> {
    done.text().lines().map(String::from).collect()
}

#[test]
fn runs_go_on_in_turn_and_end() {
    let plan = "
        reserve 0 2   # and nothing for 5
        reserve 1 62
        slice 3
        run 0 two.fir 0.0
        run 5 two.fir 0.0
    ";
    let done = pool("turns", plan, &[]);
    let expected = "\
0: starts two.fir
5: starts two.fir
round 1
  number  reserves  has  may have
       0         2    2         2  goes on after 3 steps
       5         0    0         0  VECTORS after 1 step: it might have 0
round 2
  number  reserves  has  may have
       0         2    0         2  DONE 7 after 4 steps
";
    did(&done, STOPPED, expected, "");
}

#[test]
fn a_run_starts_behind_a_round_over_another() {
    let plan = "
        slice 2
        run 3 two.fir 0.0
        run 3 more.fir 1.0 [4,5] [] after 1
    ";
    let expected = "\
3: starts two.fir
round 1
  number  reserves  has  may have
       3         0    1        64  goes on after 2 steps
3: starts more.fir
round 2
  number  reserves  has  may have
       3         0    0        64  DONE [4, 5] after 1 step
";
    did(&pool("anew", plan, &[]), 0, expected, "");
}

#[test]
fn a_start_that_needs_too_much_stops_at_once() {
    let plan = "reserve 1 63\nrun 0 more.fir 1.0 [] []";
    let done = pool("full", plan, &[]);
    let expected =
        "0: starts more.fir, and stops with VECTORS: its arguments need more than 1 vector\n";
    did(&done, STOPPED, expected, "");
}

#[test]
fn a_refused_start_leaves_the_run_that_had_the_number() {
    let plan = "
        slice 3
        run 2 two.fir 0.0
        run 2 more.fir 1.0 [] 5 after 1
        run 2 more.fir 1.0 [] [] --level portal after 1
    ";
    let done = pool("refused", plan, &[]);
    assert_eq!(done.status, 1);
    let lines = lines(&done);
    assert!(
        lines[4].starts_with("2: more.fir: refused by 12 at 0: "),
        "{lines:?}"
    );
    assert!(
        lines[5].starts_with("2: more.fir: refused by 19 at 0: "),
        "{lines:?}"
    );
    assert!(lines[8].ends_with("DONE 7 after 4 steps"), "{lines:?}");
}

#[test]
fn a_change_is_taken_or_refused_and_leaves_the_pool() {
    let plan = "
        slice 2
        run 2 two.fir 0.0
        change 2 more.fir after 1
        change 2 broken.fir after 1
        change 4 more.fir after 1
    ";
    let done = pool("changes", plan, &[]);
    assert_eq!(done.status, 1);
    let lines = lines(&done);
    assert_eq!(lines[4], "2: goes on under more.fir");
    assert!(lines[5].contains("refused by 15 at 0: "), "{lines:?}");
    assert_eq!(
        lines[6],
        "4: the number has no run that could go on under more.fir"
    );
    assert!(lines[9].ends_with("DONE 7 after 4 steps"), "{lines:?}");
}

#[test]
fn what_21_refuses_is_not_begun() {
    let plan = "reserve 0 60\nreserve 7 5\nrun 0 two.fir 0.0";
    let expected =
        "plan: refused by 21 at 0: the reserves sum to 65, and there are 64 vectors in all\n";
    did(&pool("over", plan, &[]), 1, expected, "");
    for line in ["reserve 8 1", "run 8 two.fir 0.0", "change 8 two.fir"] {
        let done = pool("number", line, &[]);
        let expected = "plan: refused by 21 at 0: 8 is no number of a run: they are 0 to 7\n";
        did(&done, 1, expected, "");
    }
    let done = pool("number_json", "reserve 8 1", &["--json"]);
    let expected = "{\"result\":\"refused\",\"question\":21,\"offset\":0,\
                    \"words\":\"8 is no number of a run: they are 0 to 7\"}\n";
    did(&done, 1, expected, "");
}

#[test]
fn the_status_is_that_of_the_worst_run() {
    let undef = pool("undef", "run 0 broken.fir 0.0 7\nrun 1 two.fir 0.0", &[]);
    assert_eq!(undef.status, UNDEF);
    let plan =
        "slice 1\nrounds 2\nrun 0 broken.fir 0.0 7\nrun 1 two.fir 0.0\nchange 1 more.fir after 9";
    let left = pool("left", plan, &[]);
    assert_eq!(left.status, STEPS);
    assert_eq!(
        lines(&left).last().map(String::as_str),
        Some("1: not reached: more.fir after round 9")
    );
}

#[test]
fn statistics_say_the_most_that_each_had() {
    let plan = "reserve 1 3\nslice 100\nrun 1 two.fir 0.0\nrun 6 broken.fir 0.0 7";
    let done = pool("stats", plan, &["--stats"]);
    let lines = lines(&done);
    assert!(lines[4].ends_with("DONE 7 after 4 steps"), "{lines:?}");
    assert!(lines[5].ends_with("UNDEF after 2 steps"), "{lines:?}");
    assert_eq!(lines[6], "  number  reserves  had most");
    assert_eq!(lines[8], "       1         3         2");
    assert_eq!(lines[13], "       6         0         0");
    assert_eq!(lines.len(), 15);
}

#[test]
fn objects_stand_for_lines() {
    let plan = "reserve 1 62\nslice 2\nrun 0 two.fir 0.0\nrun 0 two.fir 0.1 after 1\nchange 0 more.fir after 1";
    let done = pool("json", plan, &["--json", "--stats"]);
    let text = done.text();
    let lines: Vec<&str> = text.lines().collect();
    assert_eq!(
        lines[0],
        r#"{"round":0,"number":0,"image":"two.fir","started":true}"#
    );
    let round = r#"{"round":1,"runs":[{"number":0,"reserves":0,"has":1,"may_have":2,"result":"STEPS","steps":2}]}"#;
    assert_eq!(lines[1], round);
    let refused =
        r#"{"round":1,"number":0,"image":"two.fir","result":"refused","question":11,"offset":0,"#;
    assert!(lines[2].starts_with(refused), "{}", lines[2]);
    assert_eq!(
        lines[3],
        r#"{"round":1,"number":0,"image":"more.fir","taken":true}"#
    );
    let round = r#"{"round":2,"runs":[{"number":0,"reserves":0,"has":0,"may_have":2,"result":"DONE","steps":4,"value":7}]}"#;
    assert_eq!(lines[4], round);
    assert_eq!(lines[5], r#"{"most":[2,0,0,0,0,0,0,0]}"#);
    assert_eq!((done.status, lines.len()), (1, 6));
}

/// Wrong lines, and what is said of them.
const WRONG: [(&str, &str); 12] = [
    (
        "stop 3",
        "1:1: `stop` is not reserve, slice, rounds, run or change",
    ),
    (
        "\n  reserve 1",
        "2:3: a reserve is a number and a count: `reserve 0 8`",
    ),
    (
        "reserve 1 256",
        "1:1: `256` is no number of vectors of 0 to 255",
    ),
    ("slice -1", "1:1: `-1` is no slice of 0 to 4294967295"),
    ("rounds", "1:1: rounds takes one number"),
    ("run", "1:1: no number is named"),
    ("run x two.fir 0.0", "1:1: `x` is no number of a run"),
    ("run 1 two.fir", "1:1: no version is named, such as 0.0"),
    (
        "run 1 - 0.0",
        "1:1: an image of a plan stands in a file, not in standard input",
    ),
    (
        "run 1 two.fir 0.0 --budget 3",
        "1:1: `--budget` is no option",
    ),
    (
        "change 1",
        "1:1: a change is a number and a file: `change 2 new.fir after 3`",
    ),
    (
        "change 1 two.fir after x",
        "1:1: `x` is no round of 0 to 4294967295",
    ),
];

#[test]
fn a_line_that_is_wrong_is_named() {
    for (plan, reason) in WRONG {
        let done = pool("wrong", plan, &[]);
        did(&done, 1, "", &format!("plan:{reason}\n"));
    }
    let done = pool("missing", "run 1 none.fir 0.0", &[]);
    assert_eq!((done.status, done.output.len()), (2, 0));
    assert!(
        done.errors.starts_with("fir: none.fir: cannot be read: "),
        "{}",
        done.errors
    );
    let done = pool("missing_json", "run 1 none.fir 0.0", &["--json"]);
    assert!(done
        .text()
        .starts_with(r#"{"result":"failed","file":"none.fir","#));
}

#[test]
fn a_plan_comes_from_standard_input_too() {
    let done = fir(&["pool", "-"], b"reserve 0 65");
    let expected = "standard input: refused by 21 at 0: the reserves sum to 65, and there are 64 vectors in all\n";
    did(&done, 1, expected, "");
}
