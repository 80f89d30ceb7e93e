//! Where in a text something is wrong, and where registers are declared.

use text::{assemble, assemble_lined, byte_digits, Declaration};

/// The line and the column of what is wrong in a text.
#[track_caller]
fn wrong(text: &str) -> (usize, usize) {
    let error = assemble(text).expect_err("a text that is wrong");
    (error.line, error.column)
}

#[test]
fn what_is_wrong_is_named_by_line_and_column() {
    assert_eq!(wrong("verson"), (1, 1));
    assert_eq!(wrong("\n  \n\t  verson 0.0"), (3, 4));
    assert_eq!(wrong("version 0.0(r0: itn) -> int"), (1, 17));
    assert_eq!(wrong("version 0.0(r0: int) -> int more"), (1, 29));
    assert_eq!(wrong("version 0.0(r0: int) ->"), (1, 24));
    assert_eq!(wrong("version 0.0(r0: int) -> # é"), (1, 24));
    assert_eq!(wrong("  r0 = lit 9223372036854775808"), (1, 12));
    assert_eq!(wrong("  skip 3 r0"), (1, 10));
    assert_eq!(wrong("  bytes 01 2"), (1, 12));
    assert_eq!(wrong(" version 0.0(r1: int) -> int"), (1, 14));
    assert_eq!(
        wrong("version 0.0() -> int\n registers r0: int, r0: int"),
        (2, 21)
    );
}

#[test]
fn a_line_that_is_wrong_as_a_whole_is_named_at_its_first_word() {
    assert_eq!(wrong("  registers r0: int"), (1, 3));
    assert_eq!(wrong("version 0.0() -> int\n  block 1 quiet -> r0"), (2, 3));
}

/// Two versions; the registers of the second stand on three lines.
const TEXT: &str = "\
version 0.0(r0: int, r1: vector) -> int # r2: int
  block 0 quiet -> r0
version 1.0(r0: int) -> int

  registers r1: int,r2 : own vector
  # registers r3: int
  registers r3: any, heat: int
  block 0 quiet -> r0
";

/// The declaration of a register in a text.
fn declared(text: &str, version: (u8, u8), register: u8) -> Option<Declaration> {
    let lined = assemble_lined(text).expect("a text that is well formed");
    let declared = lined.declarations.of(version.0, version.1, register);
    declared.cloned()
}

/// Where a version of the text declares a register.
fn place_of(version: (u8, u8), register: u8) -> Option<(usize, usize)> {
    let declared = declared(TEXT, version, register)?;
    Some((declared.line, declared.column))
}

#[test]
fn a_register_is_found_where_its_version_declares_it() {
    assert_eq!(place_of((0, 0), 0), Some((1, 13)));
    assert_eq!(place_of((0, 0), 1), Some((1, 22)));
    assert_eq!(place_of((1, 0), 0), Some((3, 13)));
    assert_eq!(place_of((1, 0), 1), Some((5, 13)));
    assert_eq!(place_of((1, 0), 2), Some((5, 21)));
    assert_eq!(place_of((1, 0), 3), Some((7, 13)));
    assert_eq!(place_of((1, 0), 4), Some((7, 22)));
}

#[test]
fn a_register_that_is_not_declared_is_nowhere() {
    assert_eq!(place_of((0, 0), 2), None, "a comment declares nothing");
    assert_eq!(place_of((1, 0), 5), None);
    assert_eq!(place_of((1, 1), 0), None);
    assert_eq!(declared("", (0, 0), 0), None);
}

/// The words of a register's type, with their line and column.
fn type_of(version: (u8, u8), register: u8) -> Option<(usize, usize, &'static str)> {
    let words = declared(TEXT, version, register)?.ty;
    Some((words.line, words.column, &TEXT[words.bytes]))
}

#[test]
fn the_words_of_a_type_are_found_behind_its_register() {
    assert_eq!(type_of((0, 0), 0), Some((1, 17, "int")));
    assert_eq!(type_of((0, 0), 1), Some((1, 26, "vector")));
    assert_eq!(type_of((0, 0), 2), None);
    assert_eq!(type_of((1, 0), 1), Some((5, 17, "int")));
    assert_eq!(type_of((1, 0), 2), Some((5, 26, "own vector")));
    assert_eq!(type_of((1, 0), 4), Some((7, 28, "int")));
    let text = "# é\r\nversion 0.0(flow : borrow  vector ) -> int\r\n";
    let words = declared(text, (0, 0), 0).expect("it is declared").ty;
    assert_eq!((words.line, words.column), (2, 20));
    assert_eq!(&text[words.bytes], "borrow  vector");
}

#[test]
fn the_digits_of_a_byte_are_found_by_its_place() {
    let text = "version 0.0() -> int\n  bytes 0b  00 # 01\n";
    let found = |place| byte_digits(text, 2, place).map(|words| (words.column, &text[words.bytes]));
    assert_eq!(found(0), Some((9, "0b")));
    assert_eq!(found(1), Some((13, "00")));
    assert_eq!(found(2), None);
    assert_eq!(byte_digits(text, 1, 0), None);
}
