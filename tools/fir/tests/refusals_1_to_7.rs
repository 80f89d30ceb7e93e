//! The words of refusals by questions 1 to 7.

mod support;

use cases::image;
use support::refused;

/// An identity: VERSION at 0, LEVEL at 11, BLOCK at 16, 23 bytes.
const IDENTITY: &str = "version 0.0(r0: int) -> int\nblock 0 quiet -> r0\n";

/// The identity's bytes with others from a place on.
fn identity_with(place: usize, bytes: &[u8]) -> Vec<u8> {
    let mut image = image(IDENTITY);
    image[place..place + bytes.len()].copy_from_slice(bytes);
    image
}

/// Asserts the line for a text.
#[track_caller]
fn says(text: &str, line: &str) {
    refused(&image(text), line);
}

#[test]
fn question_1_names_the_size() {
    refused(
        &[],
        "refused by 1 at 0: the image is empty, and has 1 to 32,768 bytes",
    );
    refused(
        &[4, 0, 1, 0].repeat(8193),
        "refused by 1 at 0: the image has 32772 bytes, and 32,768 are the most",
    );
}

#[test]
fn question_2_names_what_is_wrong_with_the_record() {
    let identity = image(IDENTITY);
    refused(
        &identity[..22],
        "refused by 2 at 16: a BLOCK of 7 bytes ends at 23, behind the image's end at 22",
    );
    refused(
        &identity[..18],
        "refused by 2 at 16: the image ends 2 bytes into a record, and a head has 4",
    );
    refused(
        &identity_with(16, &[3]),
        "refused by 2 at 16: a BLOCK of length 3, and 4 is the least",
    );
    refused(
        &identity_with(16, &[9, 0, 99, 0]),
        "refused by 2 at 16: a record of 9 bytes ends at 25, behind the image's end at 23",
    );
}

#[test]
fn question_3_names_the_kind_or_the_length() {
    refused(
        &identity_with(18, &[4]),
        "refused by 3 at 16: 4 is the kind of no record",
    );
    refused(
        &identity_with(18, &[3]),
        "refused by 3 at 16: LEVEL has 5 bytes, this one 7",
    );
    refused(
        &identity_with(18, &[16]),
        "refused by 3 at 16: 16 was the kind of LIT with 32 bits; now LIT is kind 36, and `fir move` moves the image",
    );
    refused(
        &identity_with(18, &[36]),
        "refused by 3 at 16: LIT has 13 bytes, this one 7",
    );
    refused(
        &identity_with(18, &[24]),
        "refused by 3 at 16: ARITH has 8 bytes, this one 7",
    );
    refused(
        &identity_with(18, &[17]),
        "refused by 3 at 16: MOVE has 6 bytes, this one 7",
    );
    refused(
        &identity_with(18, &[20, 0, 0, 4]),
        "refused by 3 at 16: VEC of 4 registers has 10 bytes, this one 7",
    );
    refused(
        &identity_with(18, &[33]),
        "refused by 3 at 16: CALL has 8 bytes at least, this one 7",
    );
    refused(
        &identity_with(18, &[34]),
        "refused by 3 at 16: DISPATCH has 9 bytes at least, this one 7",
    );
}

#[test]
fn question_3_counts_registers() {
    refused(
        &identity_with(7, &[2]),
        "refused by 3 at 0: VERSION of 2 registers has 12 bytes, this one 11",
    );
    let call = [9, 0, 33, 0, 0, 0, 0, 2, 0];
    refused(
        &call,
        "refused by 3 at 0: CALL of 2 registers has 10 bytes, this one 9",
    );
    let dispatch = [9, 0, 34, 0, 0, 0, 0, 2, 1];
    refused(
        &dispatch,
        "refused by 3 at 0: DISPATCH of 1 register has 11 bytes, this one 9",
    );
    refused(
        &[6, 0, 2, 0, 0, 0],
        "refused by 3 at 0: BLOCK has 7 bytes, this one 6",
    );
}

#[test]
fn question_4_names_what_is_out_of_bounds_in_a_version() {
    says(
        "version 32.0(r0: int) -> int\nblock 0 quiet -> r0",
        "refused by 4 at 0: VERSION 32.0 has a function above 31",
    );
    says(
        "version 0.4(r0: int) -> int\nblock 0 quiet -> r0",
        "refused by 4 at 0: VERSION 0.4 has a version above 3",
    );
    says(
        "version 0.0() -> int\nblock 0 quiet -> r0",
        "refused by 4 at 0: VERSION 0.0 declares 0 registers, and 1 to 16 are allowed",
    );
    says(
        "version 0.0(r0: int) -> int parameters=2\nblock 0 quiet -> r0",
        "refused by 4 at 0: VERSION 0.0 has 2 parameters, but 1 register",
    );
}

#[test]
fn question_4_names_a_version_without_a_block_or_with_too_many() {
    for text in [
        "version 0.0(r0: int) -> int",
        "version 0.0(r0: int) -> int\nr0 = lit 1",
    ] {
        says(
            text,
            "refused by 4 at 0: VERSION 0.0 has no block, and 1 to 8 are allowed; instructions \
             stand behind a line such as `block 0 quiet -> r0`",
        );
    }
    let nine: String = (0..9)
        .map(|block| format!("block {block} quiet -> r0\n"))
        .collect();
    says(
        &format!("version 0.0(r0: int) -> int\n{nine}"),
        "refused by 4 at 0: VERSION 0.0 has 9 blocks, and 8 are the most",
    );
}

#[test]
fn question_4_names_a_count_that_is_too_great() {
    let nine: Vec<String> = (0..9).map(|r| format!("r{r}: int")).collect();
    says(
        &format!(
            "version 0.0({}) -> int\nblock 0 quiet -> r0",
            nine.join(", ")
        ),
        "refused by 4 at 0: VERSION 0.0 has 9 parameters, and 8 are the most",
    );
    let many: Vec<String> = (0..65)
        .map(|n| {
            format!(
                "version {}.{}(r0: int) -> int\nblock 0 quiet -> r0",
                n / 4,
                n % 4
            )
        })
        .collect();
    says(
        &many.join("\n"),
        "refused by 4 at 1472: VERSION 65 of the image, and 64 are the most",
    );
}

#[test]
fn question_4_names_what_is_out_of_bounds_in_blocks_and_instructions() {
    says(
        "version 0.0(r0: int) -> int\nblock 0 mark 2 -> r0",
        "refused by 4 at 16: BLOCK has the mark 2, and marks are 0 quiet and 1 reflective",
    );
    says(
        &format!("{IDENTITY}{}", "r0 = lit 0\n".repeat(49)),
        "refused by 4 at 16: BLOCK has 49 instructions, and 48 are the most",
    );
    says(
        &format!("{IDENTITY}r0 = arith 5 r0, r0"),
        "refused by 4 at 23: ARITH has the op 5, and 4 is the last",
    );
    let nine = ["r0"; 9].join(", ");
    says(
        &format!("{IDENTITY}r0 = vec [{nine}]"),
        "refused by 4 at 23: VEC lists 9 registers, and 8 are the most",
    );
    says(
        &format!("{IDENTITY}r0 = call 0.0({nine})"),
        "refused by 4 at 23: CALL of 0.0 lists 9 registers, and 8 are the most",
    );
    says(
        &format!("{IDENTITY}r0 = dispatch 0() -> int mark 7"),
        "refused by 4 at 23: DISPATCH of function 0 has the mark 7, and marks are 0 quiet and 1 reflective",
    );
    let nine = ["r0: int"; 9].join(", ");
    says(
        &format!("{IDENTITY}r0 = dispatch 0({nine}) -> int quiet"),
        "refused by 4 at 23: DISPATCH of function 0 lists 9 registers, and 8 are the most",
    );
}

#[test]
fn question_4_names_what_is_due() {
    says(
        "block 0 quiet -> r0",
        "refused by 4 at 0: BLOCK stands where a VERSION is due",
    );
    says(
        "r0 = lit 0",
        "refused by 4 at 0: LIT stands where a VERSION is due",
    );
    says(
        "version 0.0(r0: int) -> int blocks=2\nblock 0 quiet -> r0\nversion 0.1(r0: int) -> int\nblock 0 quiet -> r0",
        "refused by 4 at 23: VERSION stands where 1 more block of 0.0 is due",
    );
    says(
        "version 0.0(r0: int) -> int\nblock 0 quiet -> r0 count=2\nblock 1 quiet -> r0",
        "refused by 4 at 23: BLOCK stands where 2 more instructions of block 0 of 0.0 are due",
    );
    says(
        "version 0.0(r0: int) -> int blocks=1\nblock 0 quiet -> r0\nblock 1 quiet -> r0",
        "refused by 4 at 23: BLOCK stands where a VERSION is due",
    );
    says(
        "version 0.0(r0: int) -> int blocks=2\nblock 0 quiet -> r0",
        "refused by 4 at 23: the image ends where 1 more block of 0.0 is due",
    );
    says(
        "version 0.0(r0: int) -> int\nblock 0 quiet -> r0 count=3\nr0 = lit 1",
        "refused by 4 at 36: the image ends where 2 more instructions of block 0 of 0.0 are due",
    );
    says(
        "version 0.0(r0: int) -> int blocks=1\nr0 = lit 1",
        "refused by 4 at 16: LIT stands where 1 more block of 0.0 is due",
    );
}

#[test]
fn question_5_names_the_version_that_is_due() {
    says(
        "version 1.0(r0: int) -> int\nblock 0 quiet -> r0",
        "refused by 5 at 0: VERSION 1.0 is the first, and 0.0 is due",
    );
    says(
        &format!("{IDENTITY}version 0.2(r0: int) -> int\nblock 0 quiet -> r0"),
        "refused by 5 at 23: VERSION 0.2 follows 0.0, and 0.1 or 1.0 is due",
    );
}

#[test]
fn question_6_names_the_type_byte() {
    let version = |parameter: &str, register: &str, returns: &str| {
        format!("version 0.0(r0: {parameter}) -> {returns}\nregisters r1: {register}\nblock 0 quiet -> r0")
    };
    let cases = [
        (version("0x12", "int", "int"), "the type of r0 of VERSION 0.0 is own int, and only a vector is owned or borrowed"),
        (version("0x06", "int", "int"), "the type of r0 of VERSION 0.0 is 0x06, and there is no kind 6"),
        (version("0x33", "int", "int"), "the type of r0 of VERSION 0.0 is 0x33, and there is no ownership 3"),
        (version("int", "borrow vector", "int"), "the type of r1 of VERSION 0.0 is borrowed, and only parameters are"),
        (version("int", "0x22", "int"), "the type of r1 of VERSION 0.0 is borrow int, and only a vector is owned or borrowed"),
        (version("int", "int", "any"), "the return type of VERSION 0.0 is of kind any, and a version returns an integer, a vector or a value"),
        (version("int", "int", "quiet promise"), "the return type of VERSION 0.0 is a quiet promise, and a version returns an integer, a vector or a value"),
        (version("int", "int", "borrow vector"), "the return type of VERSION 0.0 is borrowed, and only parameters are"),
    ];
    for (text, words) in cases {
        says(&text, &format!("refused by 6 at 0: {words}"));
    }
    says(
        &format!("{IDENTITY}r0 = dispatch 0(r0: int, r0: 0x41) -> int quiet"),
        "refused by 6 at 23: the type of argument 2, r0, of DISPATCH of function 0 is 0x41, and there is no ownership 4",
    );
    says(
        &format!("{IDENTITY}r0 = dispatch 0(r0: int) -> borrow vector quiet"),
        "refused by 6 at 23: the return type of DISPATCH of function 0 is borrowed, and only parameters are",
    );
}

#[test]
fn question_7_names_what_does_not_exist() {
    let cases = [
        ("r0 = move r4", "MOVE names r4, and 0.0 declares r0 alone"),
        ("r2 = lit 4", "LIT names r2, and 0.0 declares r0 alone"),
        ("r0 = named x8", "NAMED names x8, and names are x0 to x7"),
        ("r0 = prom 1", "PROM names block 1, and 0.0 has 1 block"),
        (
            "r0 = prom 0",
            "PROM names block 0, which is not above its own, 0",
        ),
        (
            "r0 = call 1.0(r0)",
            "CALL of 1.0 names function 1, and the last function is 0",
        ),
        (
            "r0 = call 0.1(r0)",
            "CALL of 0.1 names 0.1, and function 0 has 1 version",
        ),
        (
            "r0 = call 0.0()",
            "CALL of 0.0 has 0 arguments, and 0.0 has 1 parameter",
        ),
        (
            "r0 = dispatch 5() -> int quiet",
            "DISPATCH of function 5 names function 5, and the last function is 0",
        ),
    ];
    for (instruction, words) in cases {
        says(
            &format!("{IDENTITY}{instruction}"),
            &format!("refused by 7 at 23: {words}"),
        );
    }
}

#[test]
fn question_7_names_what_is_wrong_with_a_block() {
    says(
        "version 0.0(r0: int) -> int\nregisters r1: int, r2: int\nblock 0 quiet -> r3",
        "refused by 7 at 18: BLOCK 0 gives r3, and 0.0 declares r0 to r2",
    );
    says(
        &format!("{IDENTITY}block 1 quiet -> r0"),
        "refused by 7 at 23: BLOCK 1 is named by no PROM, and needs one",
    );
    says(
        &format!("{IDENTITY}r0 = prom 1\nr0 = prom 1\nblock 1 quiet -> r0"),
        "refused by 7 at 35: BLOCK 1 is named by 2 PROMs, at 23 and 29, and needs one",
    );
}
