//! `fir trace --html`: what the page holds, and that its differences make each state.

mod support;

use generator::{accepted, entry, words};
use reference::Program;
use std::collections::BTreeMap;
use std::fs;
use support::json::Value;
use support::{arguments, file, fir, STEPS};

/// What a page shows of a state, by place.
type Shown = BTreeMap<String, String>;

/// Puts differences to what is shown.
fn apply(shown: &mut Shown, differences: &Value) {
    for pair in differences.list() {
        let place = pair.list()[0].text().to_string();
        match &pair.list()[1] {
            Value::Null => assert!(shown.remove(&place).is_some(), "{place} was not there"),
            shows => drop(shown.insert(place, shows.text().to_string())),
        }
    }
}

/// The page of a run, in a file of the test's own, and what the command did.
fn page(test: &str, call: &[&str]) -> (String, support::Done) {
    let out = file("page", &format!("{test}.html"), b"");
    let done = fir(&[&["trace", "--html", &out], call].concat(), b"");
    (fs::read_to_string(out).expect("a page"), done)
}

/// The run that a page holds.
fn run_of(page: &str) -> Value {
    let (_, behind) = page.split_once("id=\"run\">").expect("the run");
    let (run, _) = behind.split_once("</script>").expect("its end");
    Value::of(run)
}

/// A script with a comment that would end a page's script.
const SCRIPT: &str = "\
# </script><b>\"bold\"</b> & co
version 0.0(r0: int) -> int
  registers r1: vector, r2: quiet promise
  level portal
  block 0 quiet -> r0
    r1 = vec [r0, r0]
    r2 = prom 1
    r0 = force r2
  block 1 quiet -> r0
    r0 = len r1
";

#[test]
fn the_title_names_the_file_the_version_the_arguments_and_the_level() {
    let file = file("page", "a<b>&c.fir", SCRIPT.as_bytes());
    let shown = file.replace("a<b>&c", "a&lt;b&gt;&amp;c");
    let titled = |test: &str, more: &[&str], title: &str| {
        let (page, _) = page(test, &[&[&*file, "0.0", "-7"], more].concat());
        for tag in ["title", "h1"] {
            let element = format!("<{tag}>{title}</{tag}>");
            assert!(page.contains(&element), "{element}");
        }
    };
    let title = |level: &str| format!("{shown}: 0.0 -7 at level {level}");
    titled("factory", &[], &title("factory"));
    titled("staff", &["--level", "staff"], &title("staff"));
    let then = format!("{file}@1");
    let changed = format!("{}, then {shown}", title("factory"));
    titled("changed", &["--then", &then], &changed);
}

#[test]
fn the_page_holds_the_source_the_steps_and_the_result() {
    let file = file("page", "script.fir", SCRIPT.as_bytes());
    let (page, done) = page("whole", &[&file, "0.0", "7"]);
    assert_eq!(done.text(), "DONE 2 after 6 steps\n");
    let run = run_of(&page);
    assert_eq!(run.field("result").text(), "DONE 2");
    let image = &run.field("images").list()[0];
    assert_eq!(image.field("name").text(), file);
    let lines: Vec<&str> = image
        .field("lines")
        .list()
        .iter()
        .map(Value::text)
        .collect();
    assert_eq!(lines, SCRIPT.lines().collect::<Vec<_>>());
    let steps = run.field("steps").list();
    assert_eq!(steps.len(), 6);
    assert_eq!(steps[0].list()[2].text(), "r1 = v0 [7, 7]");
    let Value::Number(place) = steps[3].list()[0] else {
        panic!("{:?}", steps[3]);
    };
    let place = run.field("places").list()[place as usize].list();
    assert_eq!(
        place[1..],
        [
            Value::Number(10),
            Value::Text("0.0".into()),
            Value::Number(1),
            Value::Text("r0 = len r1".into())
        ]
    );
    assert_eq!(
        run.field("standing"),
        &Value::Null,
        "a run that is DONE stands nowhere"
    );
}

#[test]
fn the_differences_make_the_states() {
    let file = file("page", "script.fir", SCRIPT.as_bytes());
    let (page, _) = page("states", &[&file, "0.0", "7"]);
    let run = run_of(&page);
    let mut shown = Shown::new();
    apply(&mut shown, run.field("start"));
    let places = |shown: &Shown| -> Vec<String> {
        shown
            .iter()
            .map(|(place, shows)| format!("{place} {shows}"))
            .collect()
    };
    let start = [
        "a0 call 0 of 0.0: r1 = vec [r0, r0]",
        "c0 0.0",
        "c0.r0 7",
        "c0.r1 ",
        "c0.r2 ",
    ];
    assert_eq!(places(&shown), start);
    for step in &run.field("steps").list()[..3] {
        apply(&mut shown, &step.list()[3]);
    }
    assert_eq!(
        places(&shown),
        [
            "a0 call 0 of 0.0: end -> r0",
            "a1 force of p0, block 1 of call 0: r0 = len r1",
            "c0 0.0",
            "c0.r0 7",
            "c0.r1 v0",
            "c0.r2 p0",
            "p0 block 1 of call 0, is being forced",
            "v0 [7, 7]",
        ]
    );
    for step in &run.field("steps").list()[3..] {
        apply(&mut shown, &step.list()[3]);
    }
    assert_eq!(places(&shown), [""; 0]);
}

#[test]
fn the_page_needs_nothing_besides_itself() {
    let file = file("page", "script.fir", SCRIPT.as_bytes());
    let (page, _) = page("alone", &[&file, "0.0", "7"]);
    for outside in [
        "http:", "https:", " src=", "<link", "@import", "url(", "import(", "fetch(",
    ] {
        assert!(!page.contains(outside), "{outside}");
    }
    assert_eq!(
        page.matches("</script>").count(),
        2,
        "the data end no script"
    );
    for id in [
        "lines", "steps", "stack", "calls", "vectors", "promises", "slider", "number",
    ] {
        assert!(page.contains(&format!("id=\"{id}\"")), "{id}");
    }
    for key in [
        "ArrowRight",
        "ArrowLeft",
        "PageDown",
        "PageUp",
        "Home",
        "End",
    ] {
        assert!(page.contains(&format!("{key}: ")), "{key}");
    }
}

#[test]
fn each_element_that_the_script_asks_for_is_there() {
    let script = include_str!("../src/page/page.js");
    let page = include_str!("../src/page/page.html");
    let asked = script
        .split("get('")
        .skip(1)
        .filter_map(|behind| behind.split('\'').next());
    let asked: Vec<&str> = asked.collect();
    assert!(asked.len() > 10, "{asked:?}");
    for id in asked {
        assert!(page.contains(&format!("id=\"{id}\"")), "{id}");
    }
}

#[test]
fn a_run_that_changes_its_image_shows_both() {
    let old = file("page", "old.fir", SCRIPT.as_bytes());
    let new = file("page", "new.fir", format!("# New.\n{SCRIPT}").as_bytes());
    let (page, done) = page(
        "changed",
        &[&old, "0.0", "7", "--then", &format!("{new}@2")],
    );
    assert!(done.text().ends_with("DONE 2 after 6 steps\n"), "{done:?}");
    let run = run_of(&page);
    assert_eq!(run.field("images").list().len(), 2);
    let images = run
        .field("steps")
        .list()
        .iter()
        .map(|step| match step.list()[0] {
            Value::Number(place) => run.field("places").list()[place as usize].list()[0].clone(),
            _ => Value::Null,
        });
    let images: Vec<Value> = images.collect();
    assert_eq!(images, [0, 0, 1, 1, 1, 1].map(Value::Number));
}

#[test]
fn no_page_is_written_over_an_image_or_a_text() {
    let text = file("page", "kept.fir", SCRIPT.as_bytes());
    let done = fir(&["trace", &text, "0.0", "7", "--html", &text], b"");
    assert!(
        done.errors
            .contains("would hold a page, and .fir names texts"),
        "{done:?}"
    );
    let bytes = file("page", "kept.bin", &cases::image(SCRIPT));
    let done = fir(&["trace", &bytes, "0.0", "7", "--html", &bytes], b"");
    assert!(done.errors.contains("would be written over"), "{done:?}");
    assert_eq!(fs::read(&bytes).expect("it is there"), cases::image(SCRIPT));
    let done = fir(&["trace", &bytes, "0.0", "7", "--html", "a", "--json"], b"");
    assert!(done.errors.contains("do not go together"), "{done:?}");
    let done = fir(
        &["trace", &bytes, "0.0", "7", "--html", "/missing/page"],
        b"",
    );
    assert!(
        done.errors.contains("/missing/page: cannot be written: "),
        "{done:?}"
    );
    assert_eq!(done.status, 2);
}

/// A call tree of more than 10,000 steps.
fn tree() -> String {
    let version = |number: usize, calls: &str| {
        format!(
            "version {number}.0(r0: int) -> int\n  level portal\n  block 0 quiet -> r0\n{calls}"
        )
    };
    let callers = (0..6).map(|number| {
        version(
            number,
            &format!("    r0 = call {}.0(r0)\n", number + 1).repeat(4),
        )
    });
    callers.collect::<String>() + &version(6, "    r0 = move r0\n")
}

#[test]
fn a_long_run_is_stored_by_differences() {
    let file = file("page", "tree.fir", tree().as_bytes());
    let (page, done) = page("long", &[&file, "0.0", "7", "--budget=10000"]);
    assert_eq!(done.status, STEPS, "{done:?}");
    let run = run_of(&page);
    let steps = run.field("steps").list();
    assert_eq!(steps.len(), 10_000);
    let pairs: usize = steps.iter().map(|step| step.list()[3].list().len()).sum();
    println!("{} bytes, {pairs} differences", page.len());
    assert!(pairs < 40_000, "{pairs}");
    assert!(page.len() < 2_000_000, "{}", page.len());
}

/// How many generated programs are compared.
const PROGRAMS: u64 = 150;

/// What the registers and names of the calls hold, the newest first, as the debugger
/// prints it.
fn cells(shown: &Shown) -> Vec<String> {
    let held = |shows: &str| match shown.get(shows).filter(|_| shows.starts_with('v')) {
        Some(items) => format!("{shows} {items}"),
        None => shows.to_string(),
    };
    let mut calls: Vec<usize> = Vec::new();
    calls.extend(
        shown
            .keys()
            .filter_map(|place| place.strip_prefix('c')?.parse::<usize>().ok()),
    );
    calls.sort_by(|a, b| b.cmp(a));
    let line = |call: &usize| {
        let cells = (0..16)
            .map(|r| format!("r{r}"))
            .chain((0..8).map(|x| format!("x{x}")));
        let cells = cells.filter_map(|cell| {
            let shows = shown.get(&format!("c{call}.{cell}"))?;
            Some(match &shows[..] {
                "" => format!("{cell} empty"),
                shows => format!("{cell} = {}", held(shows)),
            })
        });
        cells.collect::<Vec<_>>().join(", ")
    };
    calls.iter().map(line).collect()
}

#[test]
fn the_page_shows_generated_runs_as_the_debugger_does() {
    let mut compared = 0;
    for seed in 0..PROGRAMS {
        let bytes = accepted(seed);
        let program = Program::accept(&bytes).expect("an accepted image");
        let Some(entry) = entry(seed, &program) else {
            continue;
        };
        let Some(given) = arguments(&words(seed, &program, entry)) else {
            continue;
        };
        let (file, name) = (
            file("page", "any.bin", &bytes),
            format!("{}.{}", entry.0, entry.1),
        );
        let mut call = vec![&file[..], &name, "--budget=40"];
        call.extend(given.iter().map(String::as_str));
        let (page, done) = page("generated", &call);
        if done.text().starts_with("refused") {
            continue;
        }
        let run = run_of(&page);
        let mut shown = Shown::new();
        apply(&mut shown, run.field("start"));
        for (number, step) in (1..).zip(run.field("steps").list()) {
            apply(&mut shown, &step.list()[3]);
            if number % 7 != 0 {
                continue;
            }
            let input = format!("at {number}\nstack\n");
            let text = fir(&[&["debug"], &call[..]].concat(), input.as_bytes()).text();
            let lines = text.lines().filter_map(|line| line.strip_prefix("     "));
            assert_eq!(
                cells(&shown),
                lines.collect::<Vec<_>>(),
                "seed {seed}, step {number}"
            );
            compared += 1;
        }
    }
    println!("{compared} states");
    assert!(compared > 200, "{compared}");
}
