//! `fir lint`: what it finds and what it leaves, and that what it finds is not needed.

mod support;

use cases::image;
use generator::{accepted, entry, words};
use reference::program::{Block, Program};
use reference::{kinds, Instruction};
use std::collections::BTreeMap;
use support::{arguments, file, fir, leveled};

/// A version with its block 0, all registers that the tests use, and what follows.
fn version(head: &str, mark: &str, rest: &str) -> String {
    let registers = "r2: int, r3: quiet promise, r4: reflective promise, r5: vector";
    format!("version {head}\n  registers {registers}\n  block 0 {mark} -> r0\n{rest}")
}

/// What is read and left by one of the tests' registers, so that it is no finding.
const ALL_READ: &str = "
    r2 = lit 1
    r3 = prom 1
    r4 = move r3
    r2 = force r4
    r5 = vec [r2]
    r2 = len r5
    store x0 = r2
    store x1 = r1
";

/// A promise block of the integer 1.
const BLOCK: &str = "  block 1 quiet -> r2\n    r2 = lit 1\n";

/// The image of a script without level lines.
fn leveled_image(text: &str) -> Vec<u8> {
    image(&leveled(text))
}

/// The findings of a script: line, lint and words.
fn found(name: &str, text: &str, options: &[&str]) -> Vec<String> {
    let file = file("lint", name, leveled(text).as_bytes());
    let done = fir(&[&["lint", &file], options].concat(), b"");
    assert_eq!(done.errors, "");
    let lines: Vec<String> = done.text().lines().map(String::from).collect();
    assert_eq!(done.status, u8::from(!lines.is_empty()));
    let begin = format!("{file}:");
    let behind = lines.iter().map(|line| line.strip_prefix(&begin));
    behind
        .map(|line| line.expect("a place").to_string())
        .collect()
}

#[test]
fn a_script_that_needs_all_it_has_gets_nothing() {
    let text = version(
        "0.0(r0: int, r1: int) -> int",
        "reflective",
        &format!("{ALL_READ}{BLOCK}"),
    );
    assert_eq!(found("whole.fir", &text, &[]), [""; 0]);
}

#[test]
fn registers_that_nothing_reads_are_named_where_they_are_declared() {
    let text = "version 0.0(r0: int) -> int\n  registers r1: int, r2: int\n  registers r3: int\n\
                  block 0 quiet -> r0\n    r2 = lit 4\n    r3 = call 1.0(r0, r0)\n\
                version 1.0(r0: int, r1: int) -> int\n  block 0 quiet -> r0\n";
    assert_eq!(
        found("unread.fir", text, &[]),
        [
            "2:13: unread: r1 of 0.0 is never used",
            "2:22: unread: r2 of 0.0 is assigned and never read",
            "8:22: unread: parameter r1 of 1.0 is never read",
        ]
    );
    let entered = ["--entry", "0.0", "--entry=1.0"];
    assert_eq!(
        found("unread.fir", text, &entered).len(),
        2,
        "an entry's parameters stay"
    );
    let dispatched = text.replace(
        "call 1.0(r0, r0)",
        "dispatch 1(r0: int, r0: int) -> int quiet",
    );
    assert_eq!(
        found("unread.fir", &dispatched, &[]).len(),
        2,
        "a signature that is searched for"
    );
}

#[test]
fn results_that_are_overwritten_unread_are_named() {
    let body = |rest: &str| {
        format!("version 0.0(r0: int) -> int\n  registers r1: int\n  block 0 quiet -> r0\n{rest}")
    };
    assert_eq!(
        found("again.fir", &body("r1 = lit 4\nr1 = lit 5\nr0 = add r0, r1\n"), &[]),
        ["5:1: overwritten: what LIT gives r1 is not read before LIT at 37 (line 6) assigns it again"]
    );
    assert_eq!(
        found(
            "end.fir",
            &body("r1 = lit 4\nr0 = add r0, r1\nr1 = lit 5\n"),
            &[]
        ),
        ["7:1: overwritten: what LIT gives r1 is not read before the block ends"]
    );
    // One way of the SKIP reads it.
    let one_way = "r1 = lit 4\nskip 1 unless r0\nr1 = lit 5\nr0 = add r0, r1\n";
    assert_eq!(found("way.fir", &body(one_way), &[]), [""; 0]);
    let no_way = "r1 = lit 4\nskip 1 unless r0\nr0 = lit 5\nr1 = lit 6\nr0 = add r0, r1\n";
    assert_eq!(found("ways.fir", &body(no_way), &[]).len(), 1);
    // A call may be there for what it does.
    let called = "r1 = call 0.0(r0)\nr1 = lit 4\nr0 = add r0, r1\n";
    assert_eq!(found("called.fir", &body(called), &[]), [""; 0]);
}

#[test]
fn a_result_that_a_promise_block_reads_is_left() {
    let text = "version 0.0(r0: int) -> int\n  registers r1: int, r2: quiet promise\n\
                  block 0 quiet -> r0\n    r1 = lit 4\n    r2 = prom 1\n    r1 = lit 5\n    r0 = force r2\n\
                  block 1 quiet -> r1\n";
    assert_eq!(found("captured.fir", text, &[]), [""; 0]);
}

#[test]
fn marks_that_are_too_high_are_named() {
    let text = "version 0.0(r0: int) -> int\n  block 0 reflective -> r0\n    r0 = call 1.0(r0)\n\
                version 1.0(r0: int) -> int\n  block 0 reflective -> r0\n    r0 = call 1.0(r0)\n";
    assert_eq!(
        found("marks.fir", text, &[]),
        [
            "3:3: mark: block 0 of 0.0 is reflective, and may be quiet",
            "7:3: mark: block 0 of 1.0 is reflective, and may be quiet",
        ]
    );
    let dispatch = text.replace(
        "call 1.0(r0)\nversion",
        "dispatch 1(r0: int) -> int reflective\nversion",
    );
    let words =
        "4:5: mark: DISPATCH of function 1 is reflective, and all that it may pick are quiet";
    assert!(found("dispatch.fir", &dispatch, &[]).contains(&words.to_string()));
    let quiet = dispatch.replace("int reflective", "int quiet");
    let lines = found("passed.fir", &quiet, &["--entry", "0.0", "--entry", "1.0"]);
    assert_eq!(
        lines,
        ["3:3: mark: block 0 of 0.0 is reflective, and may be quiet"]
    );
    let needed = text.replace("    r0 = call 1.0(r0)\nversion", "    r0 = call 2.0(r0)\nversion")
        + "version 2.0(r0: int) -> int\n  registers r1: quiet promise\n  block 0 reflective -> r0\n\
             r1 = prom 1\n    poke r1.x0 = r0\n  block 1 quiet -> r0\n";
    let entries = ["--entry=0.0", "--entry=1.0"];
    let lines = found("needed.fir", &needed, &entries);
    assert_eq!(
        lines,
        ["7:3: mark: block 0 of 1.0 is reflective, and may be quiet"]
    );
}

#[test]
fn promises_that_nothing_forces_are_named() {
    let body = |rest: &str| {
        format!(
            "version 0.0(r0: int) -> int\n  registers r1: quiet promise, r2: any\n  block 0 reflective -> r0\n\
             {rest}\n  block 1 quiet -> r0\n\
             version 1.0(r0: any) -> int\n  registers r1: int, r2: quiet promise\n  block 0 quiet -> r1\n\
             r2 = cast r0\n    r1 = force r2\n\
             version 2.0(r0: any) -> int\n  registers r1: int\n  block 0 quiet -> r1\n    r1 = lit 1\n"
        )
    };
    let unforced = |rest: &str| {
        let entries = ["--entry=0.0", "--entry=1.0", "--entry=2.0"];
        let lines = found("promise.fir", &body(rest), &entries);
        lines.iter().any(|line| {
            line.starts_with("5:1: unforced: nothing forces the promise of block 1, in r1")
        })
    };
    assert!(unforced("r1 = prom 1"));
    assert!(unforced("r1 = prom 1\nr2 = move r1"));
    assert!(unforced("r1 = prom 1\nr0 = call 2.0(r1)"));
    assert!(!unforced("r1 = prom 1\nr0 = force r1"));
    assert!(!unforced("r1 = prom 1\nr2 = move r1\nr0 = call 1.0(r2)"));
    assert!(!unforced("r1 = prom 1\npoke r1.x0 = r0"));
}

#[test]
fn versions_that_no_run_comes_to_are_named() {
    let text = "version 0.0(r0: int) -> int\n  block 0 quiet -> r0\n\
                version 0.1(r0: int) -> int\n  block 0 quiet -> r0\n    r0 = call 1.0(r0)\n\
                version 1.0(r0: int) -> int\n  block 0 quiet -> r0\n    r0 = dispatch 2(r0: int) -> int quiet\n\
                version 2.0(r0: int) -> int\n  block 0 quiet -> r0\n\
                version 2.1(r0: int, r1: int) -> int\n  block 0 quiet -> r0\n    r0 = add r0, r1\n";
    let last = "15:1: uncalled: no run comes to version 2.1";
    let taken = "; runs enter function 0, or what --entry names";
    assert_eq!(found("reach.fir", text, &[]), [format!("{last}{taken}")]);
    let named = found("reach.fir", text, &["--entry=0.0"]);
    assert_eq!((named.len(), named[3].as_str()), (4, last));
    assert_eq!(
        found("reach.fir", text, &["--entry", "0.0", "--entry", "2.1"]).len(),
        3
    );
    let file = file("lint", "reach.fir", leveled(text).as_bytes());
    let done = fir(&["lint", &file, "--entry", "0.2"], b"");
    let line = "refused by 11 at 0: there is no version 0.2, function 0 has 2 versions";
    assert_eq!(done.text(), format!("{file}: {line}\n"));
}

#[test]
fn an_image_that_is_refused_gets_the_line_of_check() {
    let done = fir(
        &["lint", "-"],
        &leveled_image("version 0.0(r0: int) -> int\nblock 0 quiet -> r3"),
    );
    assert!(
        done.text().starts_with("standard input: refused by 7 at "),
        "{done:?}"
    );
    assert_eq!(done.status, 1);
}

#[test]
fn findings_of_bytes_and_json_have_their_offset() {
    let image = leveled_image("version 0.0(r0: int) -> int\nblock 0 reflective -> r0");
    let line = "at 16: mark: block 0 of 0.0 is reflective, and may be quiet";
    assert_eq!(
        fir(&["lint", "-"], &image).text(),
        format!("standard input: {line}\n")
    );
    let json = r#"{"file":"standard input","lint":"mark","offset":16,"words":"block 0 of 0.0 is reflective, and may be quiet"}"#;
    assert_eq!(
        fir(&["lint", "-", "--json"], &image).text(),
        format!("{json}\n")
    );
}

/// How many generated programs are looked through.
const PROGRAMS: u64 = 1_500;

/// The findings of an image for runs of one entry: the lint and the offset of each.
fn findings(image: &[u8], entry: &str) -> Vec<(String, usize)> {
    let done = fir(&["lint", "-", "--json", "--entry", entry], image);
    assert_eq!(done.errors, "");
    let part = |line: &str, key: &str| {
        let (_, behind) = line.split_once(&format!("\"{key}\":"))?;
        let part = behind.split([',', '}']).next()?;
        Some(part.trim_matches('"').to_string())
    };
    let text = done.text();
    let finding = |line| Some((part(line, "lint")?, part(line, "offset")?.parse().ok()?));
    text.lines()
        .map(|line| finding(line).expect("a finding"))
        .collect()
}

/// The offsets of the literals of a block.
fn literals(block: &Block) -> Vec<usize> {
    let instructions = block.instructions.iter();
    let literals = instructions.filter(|placed| placed.item.kind() == kinds::LIT);
    literals.map(|placed| placed.offset).collect()
}

/// The literals that a finding says nothing reads.
fn spared(program: &Program, lint: &str, offset: usize) -> Vec<usize> {
    let mut all = Vec::new();
    for version in &program.versions {
        let blocks = version.blocks.iter();
        if lint == "uncalled" && version.offset == offset {
            all.extend(blocks.clone().flat_map(literals));
        }
        for placed in blocks.flat_map(|block| &block.instructions) {
            match placed.item {
                Instruction::Prom { block, .. }
                    if lint == "unforced" && placed.offset == offset =>
                {
                    all.extend(literals(&version.blocks[usize::from(block)]));
                }
                Instruction::Lit { .. } if lint == "overwritten" && placed.offset == offset => {
                    all.push(offset);
                }
                _ => {}
            }
        }
    }
    all
}

/// Where a literal's number begins in its record, and the marks of BLOCK and DISPATCH.
const NUMBER: usize = 5;
const BLOCK_MARK: usize = 4;
const DISPATCH_MARK: usize = 6;

/// An image without what the findings say it does not need: marks are lowered, and
/// literals are others; how many places were changed, by lint.
fn without(
    image: &[u8],
    found: &[(String, usize)],
    changed: &mut BTreeMap<String, usize>,
) -> Vec<u8> {
    let program = Program::accept(image).expect("an accepted image");
    let mut other = image.to_vec();
    for (lint, offset) in found {
        let mut places = 0;
        if lint == "mark" {
            let is_block = u16::from(image[offset + 2]) == kinds::BLOCK;
            other[offset + if is_block { BLOCK_MARK } else { DISPATCH_MARK }] = 0;
            places += 1;
        }
        for literal in spared(&program, lint, *offset) {
            other[literal + NUMBER] ^= 1;
            places += 1;
        }
        *changed.entry(lint.clone()).or_insert(0) += places;
    }
    other
}

#[test]
fn what_is_found_in_generated_programs_is_not_needed() {
    let mut changed = BTreeMap::new();
    let mut compared = 0;
    for seed in 0..PROGRAMS {
        let image = accepted(seed);
        let program = Program::accept(&image).expect("an accepted image");
        let Some(entry) = entry(seed, &program) else {
            continue;
        };
        let Some(given) = arguments(&words(seed, &program, entry)) else {
            continue;
        };
        let name = format!("{}.{}", entry.0, entry.1);
        let other = without(&image, &findings(&image, &name), &mut changed);
        let mut call = vec!["run", "-", &name, "--budget=3000"];
        call.extend(given.iter().map(String::as_str));
        let (before, after) = (fir(&call, &image).text(), fir(&call, &other).text());
        assert_eq!(before.lines().next(), after.lines().next(), "seed {seed}");
        compared += usize::from(before.starts_with("DONE") && image != other);
    }
    println!("{changed:?}, {compared} runs that end with DONE");
    for lint in ["mark", "overwritten", "uncalled", "unforced"] {
        assert!(changed.get(lint) > Some(&20), "{lint}: {changed:?}");
    }
    assert!(compared > 100, "{compared}");
}
