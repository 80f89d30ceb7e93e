//! No file, no command line and no command of the debugger makes the tool panic: it
//! answers with a status of 0 to 5, and with words where it is 2.

mod support;

use generator::{accepted, any, entry, mutated, words, Random};
use reference::Program;
use std::ffi::OsString;
use std::os::unix::ffi::OsStringExt;
use support::{arguments, file, fir, fir_of};

/// How many exit statuses there are.
const STATUSES: usize = 6;

/// How many command lines, and how many texts, are made.
const LINES: u64 = 6_000;
const TEXTS: u64 = 3_000;

/// Files of all sorts: images, texts, chance, a folder, and one that is missing.
fn files(seed: u64) -> Vec<String> {
    let chance: Vec<u8> = (0..200).map(|n| Random::new(seed + n).byte()).collect();
    let text = text::disassemble(&accepted(seed));
    vec![
        file("robust", "accepted.bin", &accepted(seed)),
        file("robust", "any.bin", &any(seed)),
        file("robust", "mutated.bin", &mutated(seed)),
        file("robust", "chance.bin", &chance),
        file("robust", "chance.fir", &chance),
        file("robust", "accepted.fir", text.as_bytes()),
        file("robust", "empty.fir", b""),
        env!("CARGO_TARGET_TMPDIR").to_string(),
        "missing/file".to_string(),
        "-".to_string(),
    ]
}

/// A word of a command line; most make sense at some place.
fn word(random: &mut Random, files: &[String]) -> OsString {
    let entry = format!("{}.{}", random.below(4), random.below(3));
    let number = random.number() as i64 >> random.below(64);
    let vector: Vec<i64> = (0..random.below(19)).map(|n| n as i64 - 3).collect();
    let odd = [
        "",
        "--",
        "--budget=",
        "--then",
        "--stats",
        "--why",
        "--under",
        "--under=12",
        "--json",
        "--html",
        "--entry=0.0",
        "--form",
        "--to",
        "-@3",
        "0.",
        ".",
        "..",
        "[",
        "]",
        "[]",
        "[,]",
        "--help",
        "-1",
        "1e3",
        "4294967295",
        "-99999999999",
        "18446744073709551616.0",
        "é",
        "[é]",
    ];
    let text = match random.below(8) {
        0 | 1 => random.pick(files),
        2 | 3 => entry,
        4 => number.to_string(),
        5 => format!("{vector:?}"),
        6 => random.pick(&odd).to_string(),
        _ => {
            let bytes = (0..random.below(5)).map(|_| random.byte().max(1)).collect();
            return OsString::from_vec(bytes);
        }
    };
    text.into()
}

/// Options that one command alone takes, now and then.
fn own_options(random: &mut Random, command: &str) -> Vec<OsString> {
    let options = match command {
        "bounds" => vec![random.pick(&["--why", "--under=30", "--under=x"])],
        "fmt" => vec!["--check"],
        "check" => vec!["--form", random.pick(&["32", "64", "8"])],
        "move" => vec!["--to", random.pick(&["32", "64", ""])],
        _ => vec![],
    };
    let given = random.one_in(2);
    let options = options.into_iter().filter(|_| given);
    options.map(OsString::from).collect()
}

/// Adds what a run is given to the line of a command.
fn add_run(random: &mut Random, line: &mut Vec<OsString>, files: &[String]) {
    line.push(format!("{}.{}", random.below(2), random.below(2)).into());
    line.extend((0..random.below(3)).map(|_| "5".into()));
    line.extend(["--budget".into(), random.below(300).to_string().into()]);
    if line[0] != "debug" && random.one_in(3) {
        let then = format!("{}@{}", random.pick(files), random.below(40));
        line.splice(1..1, ["--then".into(), then.into()]);
    }
}

/// A command line; what is written goes to a file of the test's own.
fn line(random: &mut Random, files: &[String], out: &str) -> Vec<OsString> {
    let command = random.pick(&[
        "check", "check", "run", "run", "trace", "debug", "lint", "bounds", "move", "join", "mend",
        "asm", "dis", "help", "test", "fmt",
    ]);
    let mut line: Vec<OsString> = vec![command.into(), random.pick(files).into()];
    if ["run", "trace", "debug"].contains(&command) {
        add_run(random, &mut line, files);
    }
    if command == "join" {
        line.extend((0..1 + random.below(3)).map(|_| random.pick(files).into()));
    }
    let objects = [
        "check", "run", "trace", "lint", "bounds", "join", "mend", "test",
    ];
    if objects.contains(&command) && random.one_in(4) {
        line.push("--json".into());
    } else if command == "trace" && random.one_in(3) {
        line.push(format!("--html={out}").into());
    }
    line.extend(own_options(random, command));
    if ["asm", "dis", "move", "join", "mend"].contains(&command) {
        line.extend(["-o".into(), out.into()]);
    }
    match random.below(12) {
        0 => drop(line.pop()),
        1 => drop(line.remove(1)),
        2 => line[0] = word(random, files),
        3 => line.insert(0, word(random, files)),
        4 | 5 => line.push(word(random, files)),
        _ => {}
    }
    line
}

#[test]
fn no_command_line_makes_it_panic() {
    let out = file("robust", "out", b"");
    let mut statuses = [0; STATUSES];
    let mut made = files(0);
    for seed in 0..LINES {
        if seed % 50 == 0 {
            made = files(seed);
        }
        let mut random = Random::new(seed);
        let line = line(&mut random, &made, &out);
        let done = fir_of(&line, &any(seed % 100));
        statuses[usize::from(done.status)] += 1;
        let complains = !done.errors.is_empty();
        match done.status {
            0 => assert!(!complains, "{line:?}: {done:?}"),
            2 => assert!(complains || done.text().contains("\"error\":"), "{line:?}"),
            _ => assert!(complains || !done.output.is_empty(), "{line:?}"),
        }
    }
    println!("{statuses:?}");
    assert!(
        statuses[..3].iter().all(|&count| count > 300),
        "{statuses:?}"
    );
}

/// A text with some of its signs changed, taken out or doubled.
fn changed(random: &mut Random, text: &str) -> String {
    let mut signs: Vec<char> = text.chars().collect();
    for _ in 0..1 + random.below(4) {
        let place = random.below(signs.len());
        let signs_to_try = [
            'r', '9', ' ', '\n', '#', '-', '[', ',', 'é', '.', '=', 'x', '0',
        ];
        match random.below(3) {
            0 => drop(signs.remove(place)),
            1 => signs.insert(place, random.pick(&signs_to_try)),
            _ => signs[place] = random.pick(&signs_to_try),
        }
    }
    signs.into_iter().collect()
}

#[test]
fn no_text_makes_it_panic() {
    let mut statuses = [0; STATUSES];
    for seed in 0..TEXTS {
        let mut random = Random::new(seed);
        let text = changed(&mut random, &text::disassemble(&accepted(seed % 300)));
        let file = file("robust", "changed.fir", text.as_bytes());
        for call in [
            &["check", &file][..],
            &["asm", &file],
            &["mend", &file],
            &["run", &file, "0.0", "--budget", "9"],
            &["fmt", "--check", &file],
        ] {
            let done = fir(call, b"");
            statuses[usize::from(done.status)] += 1;
            assert_ne!(done.status, 2, "seed {seed}: {done:?}");
        }
    }
    println!("{statuses:?}");
    assert!(statuses[0] > 100 && statuses[1] > 100, "{statuses:?}");
}

/// Tests in their form.
const TESTS: &str = "\
# test 0.0 5 [1, 2] --level staff: DONE -7 after 24 steps
# test 0.0 --budget 3: STEPS within 3 steps # 9
# test 1.0 [] 9 --then x.fir@9: refused by 15 at 0 after 9 steps
# test check: accepted 3
";

#[test]
fn no_test_makes_it_panic_and_each_is_counted() {
    let image = text::disassemble(&accepted(1));
    let mut malformed = 0;
    for seed in 0..TEXTS {
        let tests = changed(&mut Random::new(seed), TESTS);
        let done = fir(
            &["test", "-", "--json"],
            format!("{image}\n{tests}").as_bytes(),
        );
        let said = done.text();
        assert!(
            done.status <= 2 && done.errors.is_empty(),
            "{tests}: {done:?}"
        );
        assert!(
            said.lines()
                .last()
                .is_some_and(|line| line.contains("summary")),
            "{said}"
        );
        malformed += said.matches("\"malformed\",").count();
    }
    println!("{malformed} malformed");
    assert!(malformed > 100, "{malformed}");
}

/// How many programs are gone through by commands of chance.
const SESSIONS: u64 = 100;

/// A command of the debugger; most make sense.
fn command(random: &mut Random) -> String {
    let names = [
        "step", "s", "next", "n", "out", "o", "to", "run", "r", "back", "b", "at", "change",
        "stack", "k", "vectors", "v", "promises", "p", "list", "l", "help", "", "é", "break", "br",
        "delete", "print", "i", "watch", "call",
    ];
    let given = match random.below(7) {
        0 => random.below(200).to_string(),
        1 => format!("{}.{}", random.below(3), random.below(2)),
        2 => random
            .pick(&["-1", "4294967295", "4294967296", "1.", "999.999", "x"])
            .to_string(),
        3 => random
            .pick(&[
                "r1", "x0", "r0[1]", "r0[r1]", "r1 > 3", "r0[", "r1 é", "[", "r1 == -",
            ])
            .to_string(),
        4 => format!(
            "{} if r{} > {}",
            random.below(20),
            random.below(4),
            random.below(9)
        ),
        _ => String::new(),
    };
    format!("{} {given}\n", random.pick(&names))
}

#[test]
fn no_command_of_the_debugger_makes_it_panic() {
    let mut moved = 0;
    for seed in 0..SESSIONS {
        let mut random = Random::new(seed);
        let image = accepted(seed);
        let program = Program::accept(&image).expect("an accepted image");
        let Some(entry) = entry(seed, &program) else {
            continue;
        };
        let given = arguments(&words(seed, &program, entry)).unwrap_or_default();
        let commands: String = (0..40).map(|_| command(&mut random)).collect();
        let image = file("robust", "debugged.bin", &image);
        let entry = format!("{}.{}", entry.0, entry.1);
        let mut call = vec!["debug", &image, &entry, "--budget=300"];
        call.extend(given.iter().map(String::as_str));
        let done = fir(&call, commands.as_bytes());
        assert!(
            done.status < 2 && done.errors.is_empty(),
            "seed {seed}: {done:?}"
        );
        moved += usize::from(done.text().lines().count() > 20);
    }
    println!("{moved} sessions");
    assert!(moved > 50, "{moved}");
}
