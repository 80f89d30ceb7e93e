//! The words of refusals that SKIP brings: by 14, and by 3, 7, 8 and 10 at a SKIP.

mod support;

use cases::image;
use support::{file, fir, refused};

/// Asserts the words for a body over two integers and a vector: VERSION at 0
/// with 4 registers, BLOCK at 14, the first instruction at 21. A SKIP has 6
/// bytes, a LIT 9.
#[track_caller]
fn says(body: &str, words: &str) {
    let image = image(&format!(
        "version 0.0(r0: int, r1: own vector) -> int
           registers r2: int, r3: own vector
           block 0 quiet -> r0
             {body}"
    ));
    refused(&image, &format!("refused by {words}"));
}

#[test]
fn question_14_names_the_block_whose_end_is_passed() {
    says(
        "skip 1 unless r0",
        "14 at 26: SKIP of 1 instruction goes past the end of BLOCK 0, where none is left",
    );
    says(
        "r2 = lit 1\nskip 255 unless r0\nr2 = lit 2",
        "14 at 39: SKIP of 255 instructions goes past the end of BLOCK 0, where 1 is left",
    );
    says(
        "skip 3 unless r0\nr2 = lit 1\nr2 = lit 2",
        "14 at 26: SKIP of 3 instructions goes past the end of BLOCK 0, where 2 are left",
    );
    // The part around it ends with the block.
    says(
        "skip 2 unless r0\nskip 2 unless r0\nr2 = lit 1",
        "14 at 32: SKIP of 2 instructions goes past the end of BLOCK 0, where 1 is left",
    );
}

#[test]
fn question_14_names_the_skip_whose_part_is_passed_and_where_that_ends() {
    says(
        "skip 2 unless r0\nskip 2 unless r0\nr2 = lit 1\nr2 = lit 2",
        "14 at 32: SKIP of 2 instructions goes past the end of the part of SKIP at 26, \
         where 1 is left: it ends with the record at 38",
    );
    says(
        "skip 1 unless r0\nskip 1 unless r0\nr2 = lit 1",
        "14 at 32: SKIP of 1 instruction goes past the end of the part of SKIP at 26, \
         where none is left: it ends with the record at 32",
    );
}

#[test]
fn question_14_names_the_nearest_of_the_parts_around() {
    // Parts of the SKIPs at 21 and 27; the last SKIP stands in both.
    says(
        "skip 5 unless r0\nskip 2 unless r0\nskip 2 unless r0\nr2 = lit 1\nr2 = lit 2\nr2 = lit 3\nr2 = lit 4",
        "14 at 38: SKIP of 2 instructions goes past the end of the part of SKIP at 32, \
         where 1 is left: it ends with the record at 44",
    );
    // The part of the SKIP at 32 has ended.
    says(
        "skip 4 unless r0\nskip 1 unless r0\nr2 = lit 1\nskip 2 unless r0\nr2 = lit 2\nr2 = lit 3",
        "14 at 51: SKIP of 2 instructions goes past the end of the part of SKIP at 26, \
         where 1 is left: it ends with the record at 57",
    );
}

#[test]
fn question_14_names_the_lines_of_a_text() {
    let text = "version 0.0(r0: int) -> int\n  level portal\n  block 0 quiet -> r0\n    skip 1 unless r0\n\n    skip 1 unless r0\n    r0 = lit 1\n";
    let file = file("skips", "wrong.fir", text.as_bytes());
    assert_eq!(
        fir(&["check", &file], b"").text(),
        format!(
            "{file}:6:5: refused by 14 at 29: SKIP of 1 instruction goes past the end of the part of \
             SKIP at 23 (line 4), where none is left: it ends with the record at 29 (line 6)\n"
        )
    );
}

#[test]
fn questions_3_7_and_8_at_a_skip() {
    let mut longer = image("version 0.0(r0: int) -> int\nblock 0 quiet -> r0");
    longer.extend([7, 0, 35, 0, 0, 0, 0]);
    refused(&longer, "refused by 3 at 23: SKIP has 6 bytes, this one 7");
    says(
        "skip 0 unless r4",
        "7 at 26: SKIP names r4, and 0.0 declares r0 to r3",
    );
    says(
        "skip 0 unless r1",
        "8 at 26: SKIP needs an integer, r1 is an owned vector",
    );
}

#[test]
fn question_10_names_the_skip_that_a_register_is_assigned_behind() {
    says(
        "skip 1 unless r0\nr2 = lit 1\nr0 = add r2, r2",
        "10 at 0: in VERSION 0.0, r2 is read by ARITH add at 45, \
         and assigned by LIT at 32 only where SKIP at 26 does not skip",
    );
    // The read stands in an outer part, the assignment in one within it.
    says(
        "skip 3 unless r0\nskip 1 unless r0\nr2 = lit 1\nr0 = add r2, r2",
        "10 at 0: in VERSION 0.0, r2 is read by ARITH add at 51, \
         and assigned by LIT at 38 only where SKIP at 32 does not skip",
    );
    // Both SKIPs stand before the assignment.
    says(
        "skip 2 unless r0\nskip 1 unless r0\nr2 = lit 1\nr0 = add r2, r2",
        "10 at 0: in VERSION 0.0, r2 is read by ARITH add at 51, \
         and assigned by LIT at 38 only where SKIP at 32 does not skip",
    );
}

#[test]
fn question_10_at_the_register_of_a_skip_and_in_a_part() {
    says(
        "skip 0 unless r2",
        "10 at 0: in VERSION 0.0, r2 is read by SKIP at 26 before it is assigned",
    );
    says(
        "skip 1 unless r0\nr0 = add r2, r2",
        "10 at 0: in VERSION 0.0, r2 is read by ARITH add at 32 before it is assigned",
    );
    says(
        "skip 1 unless r0\nr3 = use r1\nr0 = len r1",
        "10 at 0: in VERSION 0.0, r1 is emptied by USE at 32 and read again by LEN at 38",
    );
}
