//! Names of registers: where they stand, what they mean, and which are refused.

use text::{assemble, assemble_lined, disassemble, KEYWORDS};

/// Every instruction, with registers by number.
const NUMBERED: &str = "\
version 0.0(r0: int, r1: own vector, r2: quiet promise) -> int
  registers r3: int, r4: value
  registers r5: own vector
  level portal
  block 0 quiet -> r3
    r4 = move r0
    r5 = use r1
    r5 = dup r1
    r5 = vec [r0, r3]
    r3 = len r5
    r3 = get r5[r0]
    set r5[r0] = r3
    r3 = add r0, r3
    r3 = arith 9 r0, r3
    r3 = select r0 ? r3 : r0
    r3 = cast r4
    r4 = named x5
    store x5 = r4
    r2 = prom 1
    r3 = force r2
    r4 = peek r2.x1
    poke r2.x1 = r4
    r3 = call 1.0(r0, r1)
    r3 = dispatch 1(r0: int, r1: own vector) -> int quiet
    skip 1 unless r3
    r3 = lit -7
  block 1 quiet -> r0

version 1.0(r0: int, r1: borrow vector) -> int
  level portal
  block 0 quiet -> r0
";

/// The names of the registers of 0.0 and 1.0.
const NAMES: [[&str; 6]; 2] = [
    ["outdoor", "Rooms", "later", "hot_water", "v", "r_2"],
    ["place", "outdoor", "", "", "", ""],
];

/// The same text with names in place of numbers.
fn named() -> String {
    let mut text = String::new();
    let mut version = 0;
    for line in NUMBERED.lines() {
        version += usize::from(line.starts_with("version 1.0"));
        let mut line = line.to_string();
        for (number, name) in NAMES[version].iter().enumerate() {
            line = line.replace(&format!("r{number}"), name);
        }
        text += &format!("{line}\n");
    }
    text
}

#[test]
fn a_name_stands_wherever_a_register_does_and_makes_the_same_image() {
    let named = named();
    assert!(named.contains("hot_water = dispatch 1(outdoor: int, Rooms: own vector) -> int quiet"));
    for number in 0..6 {
        assert!(!named.contains(&format!("r{number}")), "{named}");
    }
    let image = assemble(&named).expect("a text that is well formed");
    assert_eq!(Ok(&image), assemble(NUMBERED).as_ref());
    let in_one_line = NUMBERED.replace("\n  registers r5", ", r5");
    assert_eq!(disassemble(&image), in_one_line);
}

#[test]
fn a_named_register_keeps_its_number() {
    let mixed = named().replace("hot_water = len r_2", "r3 = len r5");
    assert_eq!(assemble(&mixed), assemble(NUMBERED));
}

#[test]
fn names_are_told_by_version() {
    let lined = assemble_lined(&named()).expect("a text that is well formed");
    let names = &lined.names;
    assert_eq!(names.of(0, 0).text(3), "hot_water");
    assert_eq!(names.of(0, 0).text(6), "r6");
    assert_eq!(names.of(1, 0).text(1), "outdoor");
    assert_eq!(names.of(7, 0).text(1), "r1");
    assert_eq!(names.of(0, 0).number("outdoor"), Some(0));
    assert_eq!(names.of(1, 0).number("outdoor"), Some(1));
    assert_eq!(names.of(1, 0).number("later"), None);
    let all: Vec<_> = names.all().collect();
    assert_eq!(all.len(), 8);
    assert_eq!(all[6], ((1, 0), 0, "place"));
}

/// What is wrong in a text: the line, the column and the reason.
#[track_caller]
fn wrong(text: &str) -> (usize, usize, String) {
    let error = assemble(text).expect_err("a text that is wrong");
    (error.line, error.column, error.reason)
}

/// What is wrong with a second register that is declared behind `flow`.
#[track_caller]
fn refused(declared: &str) -> String {
    let text = format!("version 0.0(flow: int) -> int\n  registers {declared}\n");
    let (line, column, reason) = wrong(&text);
    assert_eq!((line, column), (2, 13), "{reason}");
    reason
}

#[test]
fn a_name_stands_once_in_a_version() {
    assert_eq!(refused("flow: int"), "r0 is called `flow` already");
    let text = "version 0.0(flow: int, flow: int) -> int\n";
    assert_eq!(wrong(text), (1, 24, "r0 is called `flow` already".into()));
    let text = "version 0.0() -> int\n registers a: int, b: int, a: int\n";
    assert_eq!(wrong(text), (2, 28, "r0 is called `a` already".into()));
}

#[test]
fn a_name_is_no_word_of_the_text_form() {
    for word in KEYWORDS {
        let reason = format!("`{word}` is a word of the text form, and names no register");
        assert_eq!(refused(&format!("{word}: int")), reason);
    }
}

#[test]
fn a_name_does_not_read_as_a_number() {
    assert_eq!(refused("r0: int"), "expected r1 here, found `r0`");
    assert_eq!(refused("r2: int"), "expected r1 here, found `r2`");
    let number = "reads as a number that no register has, and names no register";
    assert_eq!(refused("r300: int"), format!("`r300` {number}"));
    let call = "reads as a name of a call, and names no register";
    assert_eq!(refused("x1: int"), format!("`x1` {call}"));
    assert_eq!(refused("x300: int"), format!("`x300` {call}"));
    for fine in [
        "r: int", "x: int", "rx1: int", "r1_: int", "x1y: int", "R1: int", "r1: int",
    ] {
        let text = format!("version 0.0(flow: int) -> int\n  registers {fine}\n");
        assert!(assemble(&text).is_ok(), "{fine}");
    }
}

#[test]
fn a_name_has_plain_letters_digits_and_lines() {
    let plain = "is no name: names have the letters a to z, digits and `_`";
    assert_eq!(refused("außen: int"), format!("`außen` {plain}"));
    assert_eq!(refused("hoté: int"), format!("`hoté` {plain}"));
    let other = "expected a register such as r0, or a name for it, found";
    assert_eq!(refused("3a: int"), format!("{other} `3a:`"));
    assert_eq!(refused("_a: int"), format!("{other} `_a:`"));
    assert_eq!(refused(": int"), format!("{other} `:`"));
}

/// What is wrong with an instruction of a version with the registers outdoor, flow and hot.
#[track_caller]
fn instruction(line: &str) -> (usize, String) {
    let head = "version 0.0(outdoor: int, flow: int) -> int\n  registers hot: int\n";
    let (number, column, reason) = wrong(&format!("{head}{line}\n"));
    assert_eq!(number, 3, "{reason}");
    (column, reason)
}

#[test]
fn an_unknown_name_is_told_with_the_nearest() {
    let hint =
        |word: &str, near: &str| format!("no register is called `{word}`; did you mean `{near}`?");
    let none = |word: &str| format!("no register is called `{word}`");
    assert_eq!(
        instruction("outdor = lit 1"),
        (1, hint("outdor", "outdoor"))
    );
    assert_eq!(
        instruction("  hot = add flow, outdoors"),
        (19, hint("outdoors", "outdoor"))
    );
    assert_eq!(
        instruction("hot = add Flow, hot"),
        (11, hint("Flow", "flow"))
    );
    assert_eq!(instruction("hot = move hat"), (12, hint("hat", "hot")));
    assert_eq!(instruction("R1 = lit 1"), (1, hint("R1", "r1")));
    assert_eq!(
        instruction("hto = lit 1"),
        (1, hint("hto", "hot")),
        "two letters are swapped"
    );
    assert_eq!(instruction("ho = lit 1"), (1, none("ho")));
    assert_eq!(instruction("heat = lit 1"), (1, none("heat")));
    assert_eq!(instruction("hot = move indoor"), (12, none("indoor")));
    assert_eq!(instruction("hot = move außen"), (12, none("außen")));
    assert_eq!(
        instruction("block 0 quiet -> hit"),
        (18, hint("hit", "hot"))
    );
    assert_eq!(instruction("skip 1 unless flw"), (15, hint("flw", "flow")));
}

#[test]
fn long_words_are_told_without_a_hint() {
    let (name, word) = ("a".repeat(1_000_000), "b".repeat(1_000_000));
    let text = format!("version 0.0({name}: int) -> int\n{word} = lit 1\n");
    let (line, column, reason) = wrong(&text);
    assert_eq!((line, column), (2, 1));
    assert!(!reason.contains("did you mean"));
}

#[test]
fn names_end_with_their_version() {
    let text = "version 0.0(flow: int) -> int\nversion 1.0(r0: int) -> int\n flow = lit 1\n";
    assert_eq!(wrong(text), (3, 2, "no register is called `flow`".into()));
    let before = "flow = lit 1\nversion 0.0(flow: int) -> int\n";
    assert_eq!(wrong(before), (1, 1, "no register is called `flow`".into()));
}

#[test]
fn what_is_no_register_is_expected_to_be_one() {
    let expected = |found: &str| format!("expected a register such as r0, found `{found}`");
    assert_eq!(
        instruction("hot = add 5, flow"),
        (
            11,
            expected("5,") + "; an integer stands behind `lit` alone"
        )
    );
    assert_eq!(instruction("hot = move lit"), (12, expected("lit")));
    let word = "expected an instruction such as move or add, found `flow`";
    assert_eq!(instruction("hot = flow"), (7, word.to_string()));
}
