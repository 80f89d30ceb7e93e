//! Names of registers in what the tool says: messages, mends, traces, the debugger and the page.

mod support;

use generator::{accepted, damaged_at, entry, to_mend, words};
use reference::Program;
use std::fs;
use support::json::Value;
use support::{arguments, did, file, fir};

/// A script with names; 0.0 calls 1.0.
const SCRIPT: &str = "\
version 0.0(outdoor: int, rooms: vector) -> int
  registers warm: int, kept: own vector, r4: quiet promise, any_one: any
  level portal
  block 0 quiet -> warm
    kept = dup rooms
    r4 = prom 1
    warm = call 1.0(kept, outdoor)
    store x1 = warm
    any_one = move rooms
    warm = cast any_one
  block 1 quiet -> warm
    warm = len rooms

version 1.0(values: borrow vector, place: int) -> int
  level portal
  block 0 quiet -> place
    place = get values[place]
";

/// The script with something changed.
fn with(old: &str, new: &str) -> String {
    assert!(SCRIPT.contains(old), "{old}");
    SCRIPT.replacen(old, new, 1)
}

/// Asserts the words of a refusal, which stand behind its number and offset.
#[track_caller]
fn refused(text: &str, place: &str, words: &str) {
    let done = fir(&["check", "-", "--no-mend"], text.as_bytes());
    let said = done.text();
    let begin = format!("standard input:{place}: refused by ");
    assert!(said.starts_with(&begin), "{said}");
    assert!(said.ends_with(&format!(": {words}\n")), "{said}");
}

#[test]
fn refusals_call_registers_as_the_text_does() {
    let text = with("kept = dup rooms", "kept = dup outdoor");
    refused(&text, "5:5", "DUP needs a vector, outdoor is an integer");
    let text = with("kept = dup rooms", "kept = len rooms");
    refused(
        &text,
        "5:5",
        "LEN gives an integer, kept is an owned vector",
    );
    let text = with("call 1.0(kept, outdoor)", "call 1.0(kept, rooms)");
    let words = "CALL of 1.0: parameter place is an integer, rooms is a shared vector";
    refused(&text, "7:5", words);
    let text = with("any_one = move rooms", "warm = move rooms");
    let words =
        "MOVE needs a source within warm's kind, warm is an integer, rooms is a shared vector";
    refused(&text, "9:5", words);
    let text = with("quiet -> warm", "quiet -> rooms");
    refused(
        &text,
        "4:3",
        "BLOCK 0 gives rooms, a shared vector, and 0.0 returns an integer",
    );
    let text = with("kept: own vector", "kept: borrow vector");
    let words = "the type of kept of VERSION 0.0 is borrowed, and only parameters are";
    refused(&text, "2:24", words);
    let text = with("r4: quiet", "r4: reflective");
    let text = text.replacen("store x1 = warm", "warm = force r4", 1);
    let words =
        "BLOCK 0 is quiet, but FORCE at 50 (line 8) is reflective: r4 is a reflective promise";
    refused(&text, "4:3", words);
}

#[test]
fn the_words_of_flow_call_registers_as_the_text_does() {
    let text = with("    kept = dup rooms\n", "");
    let words = "in VERSION 0.0, kept is read by CALL of 1.0 at 34 (line 6) before it is assigned";
    refused(&text, "6:5", words);
    let text = with(
        "    warm = cast any_one\n",
        "    kept = use kept\n    r4 = prom 1\n",
    );
    let text = text.replacen("    warm = len rooms\n", "    warm = len kept\n", 1);
    let text = text.replacen("    r4 = prom 1\n", "", 1);
    assert_eq!(fir(&["check", "-"], text.as_bytes()).status, 0, "{text}");
    let text = with("    warm = cast any_one\n", "    kept = use kept\n");
    let text = text.replacen("    warm = len rooms\n", "    warm = len kept\n", 1);
    let words = "in VERSION 0.0, kept is captured by PROM at 34 (line 6) and then emptied by USE \
        at 62 (line 10), which fills it again";
    refused(&text, "10:5", words);
}

#[test]
fn a_mend_calls_the_register_by_its_name_and_keeps_the_names() {
    let wrong = with("place: int", "place: vector");
    let path = file("names", "wrong.fir", wrong.as_bytes());
    let out = file("names", "mended.fir", b"");
    let done = fir(&["mend", &path, "-o", &out], b"");
    let said = format!(
        "{path}:16:5: refused by 8 at 150: GET needs an integer as index, place is a shared vector\n\
         {path}:14:43: mend: parameter place of 1.0: int in place of vector\nmended to {out}\n"
    );
    let text = done.text();
    let told: Vec<&str> = text.lines().skip(1).collect();
    let due: Vec<&str> = said.lines().skip(1).collect();
    assert_eq!(told, due);
    assert_eq!(fs::read_to_string(&out).expect("it is written"), SCRIPT);
    let object = Value::of(fir(&["check", "--json", &path], b"").text().trim());
    let words = object.field("mend").field("words").text();
    assert_eq!(words, "parameter place of 1.0: int in place of vector");
    assert_eq!(object.field("mend").field("register"), &Value::Number(1));
}

#[test]
fn lint_calls_registers_by_their_names() {
    let text = with("    warm = cast any_one\n", "");
    let done = fir(&["lint", "-"], text.as_bytes());
    let said = "\
        standard input:2:42: unread: r4 of 0.0 is assigned and never read\n\
        standard input:2:61: unread: any_one of 0.0 is assigned and never read\n\
        standard input:6:5: unforced: nothing forces the promise of block 1, in r4\n";
    did(&done, 1, said, "");
    let text = with("    store x1 = warm\n", "    any_one = move warm\n");
    let done = fir(&["lint", "-"], text.as_bytes());
    let words = "what MOVE gives any_one is not read before MOVE at 56 (line 9) assigns it again";
    assert!(done.text().contains(words), "{}", done.text());
}

#[test]
fn runs_call_registers_by_their_names() {
    let path = file("names", "script.fir", SCRIPT.as_bytes());
    let run = |arguments: &[&str]| fir(&[&["run", &path, "0.0"], arguments].concat(), b"").text();
    let words =
        "refused by 12 at 0: parameter rooms of 0.0 is a shared vector, and got the integer 5\n";
    assert_eq!(run(&["1", "5"]), words);
    let undefined = run(&["1", "[7,8]"]);
    let words = "warm = cast any_one: any_one holds v0 [7, 8], which is not of warm's kind\n";
    assert!(undefined.ends_with(words), "{undefined}");
    let outside = run(&["2", "[7,8]"]);
    let words = "place = get values[place]: index 2 is outside of v1 [7, 8]\n";
    assert!(outside.ends_with(words), "{outside}");
}

#[test]
fn a_trace_calls_the_registers_of_each_call_by_its_own_names() {
    let path = file("names", "script.fir", SCRIPT.as_bytes());
    let text = fir(&["trace", &path, "0.0", "1", "[7,8]"], b"").text();
    let told: Vec<&str> = text.lines().map(|line| line[19..].trim_start()).collect();
    let due = [
        "block 0  kept = dup rooms                     kept = v1 [7, 8]",
        "block 0  r4 = prom 1                          r4 = p0, p0 is block 1 of call 0",
        "block 0  warm = call 1.0(kept, outdoor)       opens call 1 of 1.0 with \
         values = v1 [7, 8], place = 1",
        "block 0  place = get values[place]            place = 8",
        "block 0  end -> place                         ends call 1 with 8, call 0: warm = 8",
        "block 0  store x1 = warm                      x1 = 8",
    ];
    for (told, due) in told.iter().zip(due) {
        assert!(due.ends_with(told), "{told}\n{due}");
    }
    let text = fir(&["trace", &path, "0.0", "1", "[7,8]", "--json"], b"").text();
    let first = Value::of(text.lines().next().unwrap_or_default());
    assert_eq!(first.field("text").text(), "kept = dup rooms");
}

#[test]
fn no_fit_names_the_parameter_of_the_version_and_the_register_of_the_dispatch() {
    let text = "version 0.0(given: value) -> int\n  registers taken: int\n  level portal\n  \
        block 0 quiet -> taken\n    taken = dispatch 1(given: value) -> int quiet\n\
        version 1.0(items: vector) -> int\n  registers number: int\n  level portal\n  \
        block 0 quiet -> number\n    number = len items\n";
    let path = file("names", "dispatch.fir", text.as_bytes());
    let said = fir(&["run", &path, "0.0", "7"], b"").text();
    let words = "1.0 takes a shared vector as items, and given holds 7\n";
    assert!(said.ends_with(words), "{said}");
}

#[test]
fn the_debugger_shows_and_takes_names() {
    let path = file("names", "script.fir", SCRIPT.as_bytes());
    let orders =
        b"call\nwatch warm\nstack\nwatch r2\nwatch warn\nto 1.0\nvectors\nto 16\npromises\n";
    let done = fir(&["debug", &path, "0.0", "1", "[7,8]"], orders);
    let text = done.text();
    for line in [
        "  outdoor int                1",
        "  rooms   vector             [7, 8]",
        "  any_one any                empty",
        "     outdoor = 1, rooms = v0 [7, 8], warm = 8, kept = v1 [7, 8], r4 = p0, any_one empty",
        "`warn` is no register such as r3, and no name such as x0; did you mean `warm`?",
    ] {
        assert!(text.lines().any(|there| there == line), "{line}\n{text}");
    }
    let done = fir(
        &["debug", &path, "0.0", "1", "[7,8]"],
        b"to 1.0\nvectors\npromises\n",
    );
    let text = done.text();
    let held = "v1 [7, 8]: kept of call 0 (own), values of call 1 (borrow)";
    assert!(text.lines().any(|line| line == held), "{text}");
    let held = "p0 block 1 of call 0, not forced yet: r4 of call 0";
    assert!(text.lines().any(|line| line == held), "{text}");
}

#[test]
fn the_page_has_the_names_of_each_image() {
    let path = file("names", "script.fir", SCRIPT.as_bytes());
    let page = file("names", "page.html", b"");
    let done = fir(&["trace", &path, "0.0", "1", "[7,8]", "--html", &page], b"");
    assert_eq!(done.errors, "");
    let page = fs::read_to_string(page).expect("it is written");
    let run = page.split("id=\"run\"").nth(1).expect("the run");
    let run = run.split_once('>').expect("the data").1;
    let run = Value::of(run.split("</script>").next().expect("their end").trim());
    let image = &run.field("images").list()[0];
    let names = image.field("names").list().iter().map(|name| {
        let words: Vec<&str> = name.list().iter().map(Value::text).collect();
        words.join(" ")
    });
    let names: Vec<String> = names.collect();
    assert_eq!(names[0], "0.0 r0 outdoor");
    assert_eq!(names[6], "1.0 r1 place");
    assert_eq!(names.len(), 7);
    assert!(page.contains("this.names.get("), "the page looks names up");
    let stack = run.field("start").list()[0].list();
    assert!(stack.len() == 2);
    let text = run.field("places").list()[0].list()[4].text();
    assert_eq!(text, "kept = dup rooms");
}

#[test]
fn images_do_not_hold_names_and_dis_writes_numbers() {
    let image = fir(&["asm", "-"], SCRIPT.as_bytes()).output;
    let text = fir(&["dis", "-"], &image).text();
    for name in [
        "outdoor", "rooms", "warm", "kept", "any_one", "values", "place",
    ] {
        assert!(!text.contains(name), "{name}");
    }
    assert_eq!(fir(&["asm", "-"], text.as_bytes()).output, image);
}

/// How many generated texts of each sort are tried.
const TEXTS: u64 = 150;

/// The questions whose refusals name registers that are declared.
const ABOUT_REGISTERS: [u8; 5] = [6, 8, 9, 10, 14];

/// A text with a name in place of each register's number, one space between words.
fn with_names(text: &str) -> String {
    let mut named = narrow(text);
    for register in (0..16).rev() {
        named = named.replace(&format!("r{register}"), &format!("called_{register}"));
    }
    named
}

/// A text with one space between words.
fn narrow(text: &str) -> String {
    let words = |line: &str| line.split_whitespace().collect::<Vec<_>>().join(" ");
    text.lines().map(|line| words(line) + "\n").collect()
}

/// What a command says of a text, without the columns of its places.
fn said(command: &[&str], text: &str) -> String {
    let line = [command, &["-"]].concat();
    let told = fir(&line, text.as_bytes()).text();
    let plain = told.lines().map(|line| {
        let behind = line.strip_prefix("standard input:");
        let placed = behind.and_then(|behind| behind.split_once(": "));
        let placed = placed.and_then(|(place, words)| Some((place.split_once(':')?.0, words)));
        placed.map_or(line.to_string(), |(number, words)| {
            format!("{number}: {words}")
        })
    });
    narrow(&plain.collect::<Vec<_>>().join("\n"))
}

#[test]
fn generated_messages_have_the_name_of_every_register() {
    let mut named = 0;
    for seed in 0..TEXTS {
        let damaged = ABOUT_REGISTERS.map(|question| damaged_at(question, seed));
        for image in damaged.into_iter().chain([accepted(seed)]) {
            let text = text::disassemble(&image);
            let called = with_names(&text);
            assert_eq!(text::assemble(&called).as_ref(), Ok(&image), "seed {seed}");
            for command in ["check", "lint"] {
                let plain = with_names(&said(&[command], &text));
                assert_eq!(said(&[command], &called), plain, "seed {seed}\n{text}");
                named += usize::from(plain.contains("called_"));
            }
        }
    }
    println!("{named} messages with names");
    assert!(named > 300, "{named}");
}

#[test]
fn generated_runs_are_traced_with_the_name_of_every_register() {
    let mut traced = 0;
    for seed in 0..TEXTS {
        let image = accepted(seed);
        let program = Program::accept(&image).expect("an accepted image");
        let Some(entry) = entry(seed, &program) else {
            continue;
        };
        let given = arguments(&words(seed, &program, entry)).unwrap_or_default();
        let entry = format!("{}.{}", entry.0, entry.1);
        let call = ["trace", "--budget=60", "-", &entry];
        let call: Vec<&str> = call
            .into_iter()
            .chain(given.iter().map(String::as_str))
            .collect();
        let text = text::disassemble(&image);
        let trace = |text: &str| {
            let told = fir(&call, text.as_bytes()).text();
            let steps = told
                .lines()
                .filter(|line| !line.starts_with("standard input:"));
            narrow(&steps.collect::<Vec<_>>().join("\n"))
        };
        let plain = with_names(&trace(&text));
        assert_eq!(trace(&with_names(&text)), plain, "seed {seed}\n{text}");
        traced += usize::from(plain.contains("called_"));
    }
    println!("{traced} traces with names");
    assert!(traced > 50, "{traced}");
}

#[test]
fn generated_mends_keep_the_names() {
    let mut mended = 0;
    for seed in 0..TEXTS {
        let text = text::disassemble(&to_mend(seed).image);
        let outs = [text.clone(), with_names(&text)].map(|text| {
            let out = file("names", "generated.fir", b"");
            let done = fir(&["mend", "-", "-o", &out], text.as_bytes());
            let written = fs::read_to_string(&out).expect("it is there");
            (done.status, written)
        });
        let [(status, plain), (with_status, with)] = outs;
        assert_eq!(status, with_status, "seed {seed}");
        assert_eq!(with, with_names(&plain), "seed {seed}");
        mended += usize::from(!plain.is_empty());
    }
    println!("{mended} mended");
    assert!(mended > 20, "{mended}");
}
