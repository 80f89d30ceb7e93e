//! The text form: each instruction, nice programs, escape forms, and what is wrong.

use text::{assemble, disassemble, listing};

/// Asserts that a line is the text of these bytes, both ways.
#[track_caller]
fn line(text: &str, bytes: &[u8]) {
    assert_eq!(assemble(text).as_deref(), Ok(bytes));
    assert_eq!(disassemble(bytes).trim(), text);
}

/// Asserts that the disassembly of an image gives its bytes back.
#[track_caller]
fn round_trip(image: &[u8]) {
    let text = disassemble(image);
    assert_eq!(assemble(&text).as_deref(), Ok(image), "{text}");
}

/// Asserts that a text is wrong, and how.
#[track_caller]
fn wrong(text: &str, error: &str) {
    let found = assemble(text).expect_err("the text is wrong");
    assert_eq!(found.to_string(), error);
}

#[test]
fn one_example_of_each_instruction() {
    line("r1 = move r0", &[6, 0, 17, 0, 1, 0]);
    line("r1 = use r0", &[6, 0, 18, 0, 1, 0]);
    line("r1 = dup r0", &[6, 0, 19, 0, 1, 0]);
    line("r1 = vec [r2, r3]", &[8, 0, 20, 0, 1, 2, 2, 3]);
    line("r1 = len r0", &[6, 0, 21, 0, 1, 0]);
    line("r1 = get r0[r2]", &[7, 0, 22, 0, 1, 0, 2]);
    line("set r0[r2] = r3", &[7, 0, 23, 0, 0, 2, 3]);
    line("r1 = add r2, r3", &[8, 0, 24, 0, 1, 0, 2, 3]);
    line("r1 = select r2 ? r3 : r4", &[8, 0, 25, 0, 1, 2, 3, 4]);
    line("r1 = cast r0", &[6, 0, 26, 0, 1, 0]);
    line("r1 = named x5", &[6, 0, 27, 0, 1, 5]);
    line("store x5 = r1", &[6, 0, 28, 0, 5, 1]);
    line("r1 = prom 2", &[6, 0, 29, 0, 1, 2]);
    line("r0 = force r1", &[6, 0, 30, 0, 0, 1]);
    line("r0 = peek r1.x5", &[7, 0, 31, 0, 0, 1, 5]);
    line("poke r1.x5 = r0", &[7, 0, 32, 0, 1, 5, 0]);
    line("r0 = call 3.1(r1, r2)", &[10, 0, 33, 0, 0, 3, 1, 2, 1, 2]);
    line(
        "r0 = dispatch 3(r1: int, r2: own vector) -> value quiet",
        &[13, 0, 34, 0, 0, 3, 0, 1, 2, 2, 1, 0x13, 2],
    );
    line("skip 3 unless r1", &[6, 0, 35, 0, 1, 3]);
    line("skip 255 unless r0", &[6, 0, 35, 0, 0, 255]);
    line(
        "r0 = lit -7",
        &[
            13, 0, 36, 0, 0, 0xF9, 0xFF, 0xFF, 0xFF, 0xFF, 0xFF, 0xFF, 0xFF,
        ],
    );
}

#[test]
fn each_operation_of_arith() {
    for (op, word) in ["add", "sub", "mul", "div", "less"].iter().enumerate() {
        let bytes = [8, 0, 24, 0, 1, op as u8, 2, 3];
        line(&format!("r1 = {word} r2, r3"), &bytes);
    }
    line("r1 = arith 5 r2, r3", &[8, 0, 24, 0, 1, 5, 2, 3]);
}

#[test]
fn each_level_has_a_word_or_a_number() {
    for (byte, word) in ["portal", "staff", "factory"].iter().enumerate() {
        line(&format!("level {word}"), &[5, 0, 3, 0, byte as u8]);
        let by_number = assemble(&format!("level {byte}"));
        assert_eq!(by_number, assemble(&format!("level {word}")));
    }
    for byte in 3..=255 {
        line(&format!("level {byte}"), &[5, 0, 3, 0, byte]);
    }
}

#[test]
fn levels_that_are_no_records_are_bytes() {
    line("bytes 04 00 03 00", &[4, 0, 3, 0]);
    line("bytes 06 00 03 00 01 00", &[6, 0, 3, 0, 1, 0]);
}

#[test]
fn levels_may_be_missing_doubled_or_anywhere() {
    for text in [
        "version 0.0(r0: int) -> int\n  block 0 quiet -> r0\n",
        "version 0.0(r0: int) -> int\n  level staff\n  level portal\n  block 0 quiet -> r0\n",
        "  level staff\n\nversion 0.0(r0: int) -> int\n  block 0 quiet -> r0\n  level portal\n",
    ] {
        let image = assemble(text).expect("a text that is well formed");
        assert_eq!(disassemble(&image), text);
        // The counts are those of blocks and instructions.
        assert_eq!(image.last().copied(), Some(0));
    }
}

#[test]
fn each_type_has_words_or_a_byte() {
    let text = |byte: u8| disassemble(&[11, 0, 34, 0, 0, 3, 1, 1, 1, byte, 2]);
    for (byte, words) in [
        (0x00, "any"),
        (0x01, "value"),
        (0x02, "int"),
        (0x03, "vector"),
        (0x04, "quiet promise"),
        (0x05, "reflective promise"),
        (0x13, "own vector"),
        (0x23, "borrow vector"),
        (0x12, "own int"),
        (0x25, "borrow reflective promise"),
        (0x06, "0x06"),
        (0x33, "0x33"),
        (0xFF, "0xFF"),
    ] {
        let expected = format!("r0 = dispatch 3(r2: {words}) -> value reflective");
        assert_eq!(text(byte).trim(), expected);
    }
    for byte in 0..=255 {
        round_trip(&[11, 0, 34, 0, 0, 3, 1, byte, 1, byte, 2]);
    }
}

#[test]
fn literals_reach_both_ends_of_the_range() {
    line(
        "r0 = lit 9223372036854775807",
        &[
            13, 0, 36, 0, 0, 0xFF, 0xFF, 0xFF, 0xFF, 0xFF, 0xFF, 0xFF, 0x7F,
        ],
    );
    line(
        "r0 = lit -9223372036854775808",
        &[13, 0, 36, 0, 0, 0, 0, 0, 0, 0, 0, 0, 0x80],
    );
}

const NICE: &str = "\
version 0.0(r0: own vector) -> own vector
  registers r1: int, r2: quiet promise
  level staff
  block 0 quiet -> r0
    r1 = lit 0
    r2 = prom 1
    r1 = force r2
  block 1 quiet -> r1
    r1 = get r0[r1]

version 1.0(r0: int) -> int
  level portal
  block 0 reflective -> r0
";

#[test]
fn nice_program_reads_as_it_is_written() {
    let image = assemble(NICE).expect("a program");
    assert_eq!(disassemble(&image), NICE);
    let identity = &image[image.len() - 23..];
    assert_eq!(identity[..11], [11, 0, 1, 0, 1, 0, 1, 1, 2, 1, 2]);
    assert_eq!(identity[11..16], [5, 0, 3, 0, 0]);
    assert_eq!(identity[16..], [7, 0, 2, 0, 1, 0, 0]);
    // 3 registers, 2 blocks; the body has 3 instructions, the promise block 1.
    assert_eq!(image[..13], [13, 0, 1, 0, 0, 0, 1, 3, 0x13, 2, 0x13, 2, 4]);
    assert_eq!(image[13..18], [5, 0, 3, 0, 1]);
    assert_eq!(image[18..25], [7, 0, 2, 0, 0, 0, 3]);
}

/// The blocks of text in the crate's documentation.
fn documented() -> Vec<String> {
    let source = include_str!("../src/lib.rs");
    let lines = source.lines().filter_map(|line| line.strip_prefix("//!"));
    let lines: Vec<&str> = lines.collect();
    let blocks = lines.split(|line| line.trim().starts_with("```"));
    blocks
        .skip(1)
        .step_by(2)
        .map(|block| block.join("\n"))
        .collect()
}

#[test]
fn documented_program_is_accepted_and_does_what_it_says() {
    let image = assemble(&documented()[0]).expect("a program");
    let program = reference::Program::accept(&image).expect("an accepted image");
    let mut buffer = [0; 16];
    let state = reference::State::begin(&program, 0, 0, 0, &[2, 5, -8], &buffer);
    let state = state.expect("a run begins");
    let (_, answer, _) = state.budget(&program, 100, &mut buffer);
    assert_eq!(answer, reference::Answer::Ended(reference::End::Vector(2)));
    assert_eq!(buffer[..2], [10, -16]);
}

#[test]
fn documented_instructions_are_the_twenty_by_kind_number() {
    let image = assemble(&documented()[1]).expect("instructions");
    let records = reference::questions::records(&image).expect("records");
    let kinds: Vec<u16> = records.iter().map(|placed| placed.item.kind()).collect();
    assert_eq!(kinds, (17..=36).collect::<Vec<u16>>());
}

#[test]
fn spaces_comments_and_blank_lines_are_free() {
    let spaced = NICE
        .replace(", ", " ,")
        .replace(" = ", "=")
        .replace('\n', " # note\n\n");
    assert_eq!(assemble(&spaced), assemble(NICE));
}

#[test]
fn registers_may_stand_on_several_lines() {
    let split = NICE.replace("registers r1: int, r2", "registers r1: int\n registers r2");
    assert_eq!(assemble(&split), assemble(NICE));
}

#[test]
fn listing_assembles_to_the_same_image() {
    let image = assemble(NICE).expect("a program");
    let listing = listing(&image);
    assert!(listing.contains("r1 = lit 0                                     # at 25"));
    assert_eq!(assemble(&listing), Ok(image));
}

#[test]
fn counts_that_differ_are_written_out() {
    let text = "version 0.0() -> int parameters=3 blocks=7\n  block 0 mark 9 -> r200 count=255\n";
    let image = assemble(text).expect("an image");
    assert_eq!(image[..10], [10, 0, 1, 0, 0, 0, 3, 0, 2, 7]);
    assert_eq!(image[10..], [7, 0, 2, 0, 9, 200, 255]);
    assert_eq!(disassemble(&image), text);
}

#[test]
fn stray_records_come_back() {
    round_trip(&[7, 0, 2, 0, 0, 0, 0]);
    round_trip(&[6, 0, 17, 0, 1, 0]);
    let blocks: Vec<u8> = [7, 0, 2, 0, 0, 0, 1].repeat(300);
    round_trip(&blocks);
    let mut many = vec![11, 0, 1, 0, 0, 0, 1, 1, 2, 1, 2];
    many.extend(blocks);
    round_trip(&many);
    let mut long = vec![7, 0, 2, 0, 0, 0, 4];
    long.extend([6, 0, 17, 0, 1, 0].repeat(260));
    round_trip(&long);
}

#[test]
fn versions_with_every_count_of_registers_and_parameters_come_back() {
    for registers in [0_u8, 1, 8, 16, 17, 255] {
        for parameters in [0_u8, 1, 8, 9, 17, 255] {
            let mut record = (10 + u16::from(registers)).to_le_bytes().to_vec();
            record.extend([1, 0, 40, 9, parameters, registers, 0x77, 0]);
            record.extend((0..registers).map(|r| r.wrapping_mul(37)));
            round_trip(&record);
        }
    }
}

#[test]
fn longest_lists_come_back() {
    for (kind, fields, pairs) in [(20, 1, 1), (33, 3, 1), (34, 4, 2)] {
        let length = 4 + fields + 1 + 255 * pairs;
        let mut record = (length as u16).to_le_bytes().to_vec();
        record.extend([kind, 0]);
        record.extend(vec![3; fields]);
        record.push(255);
        record.extend(vec![9; 255 * pairs]);
        round_trip(&record);
    }
}

#[test]
fn bytes_that_make_no_record_come_back() {
    for bytes in [
        &[][..],
        &[1],
        &[3, 0, 0],
        &[0; 9],
        &[255; 40],
        &[6, 0, 99, 0, 1, 2, 6, 0, 17, 0, 1, 0],
        &[7, 0, 17, 0, 1, 0, 1, 6, 0, 17, 0, 1],
        &[6, 0, 17, 1, 1, 0],
    ] {
        round_trip(bytes);
    }
}

#[test]
fn bytes_lines_do_not_count_as_instructions() {
    let text = "block 0 quiet -> r0\nbytes 06 00 11 00 01 00\nr0 = lit 1";
    let image = assemble(text).expect("an image");
    assert_eq!(image[6], 1);
}

#[test]
fn words_with_capital_letters_get_a_hint() {
    for (text, line) in [
        (
            "r0 = Less r1, r2",
            "line 1: expected an instruction, found `Less`; words are written in small letters",
        ),
        (
            "Block 0 quiet -> r0",
            "line 1: expected version, registers, level, block, bytes or an instruction, \
             found `Block`; words are written in small letters",
        ),
        (
            "version 0.0(r0: Int) -> int",
            "line 1: expected a type such as int or own vector, found `Int)`; words are written \
             in small letters",
        ),
        (
            "level Portal",
            "line 1: expected portal, staff or factory, found `Portal`; words are written in \
             small letters",
        ),
        (
            "block 0 QUIET -> r0",
            "line 1: expected quiet or reflective, found `QUIET`; words are written in small \
             letters",
        ),
        (
            "bytes FG",
            "line 1: expected two hexadecimal digits, found `FG`",
        ),
    ] {
        wrong(text, line);
    }
}

#[test]
fn wrong_lines_are_named_with_their_reason() {
    wrong(
        "\nr0 = hop r1",
        "line 2: expected an instruction, found `hop`",
    );
    wrong(
        "r0 = move x1",
        "line 1: expected a register such as r0, found `x1`",
    );
    wrong(
        "r0 = move",
        "line 1: expected a register such as r0, found the end of the line",
    );
    wrong(
        "r0 = move r256",
        "line 1: expected a register such as r0, found `r256`",
    );
    for beyond in ["9223372036854775808", "-9223372036854775809", "x"] {
        let integers = "an integer of -9223372036854775808 to 9223372036854775807";
        wrong(
            &format!("r0 = lit {beyond}"),
            &format!("line 1: expected {integers}, found `{beyond}`"),
        );
    }
    for fraction in ["21.5", "-0.5"] {
        wrong(
            &format!("r0 = lit {fraction}"),
            &format!("line 1: expected an integer, which has no fraction, found `{fraction}`"),
        );
    }
    wrong(
        "r0 = r1 + r2",
        "line 1: expected an instruction such as move or add, found `r1`",
    );
    wrong(
        "r0 = move r1 r2",
        "line 1: expected the end of the line, found `r2`",
    );
    wrong("r0 = get r1(r2)", "line 1: expected `[`, found `(r2)`");
    wrong(
        "store r0 = r1",
        "line 1: expected a name such as x0, found `r0`",
    );
    wrong(
        "skip 256 unless r0",
        "line 1: expected a number of 0 to 255, found `256`",
    );
    wrong("skip 3 if r0", "line 1: expected `unless`, found `if`");
    wrong(
        "jump r0",
        "line 1: expected version, registers, level, block, bytes or an instruction, found `jump`",
    );
    wrong(
        "bytes 0 1",
        "line 1: expected two hexadecimal digits, found `0`",
    );
}

#[test]
fn wrong_structure_is_named_with_its_reason() {
    wrong(
        "version 0.0(r1: int) -> int",
        "line 1: expected r0 here, found `r1`",
    );
    wrong(
        "version 0.0(r0: integer) -> int",
        "line 1: expected a type such as int or own vector, found `integer)`",
    );
    wrong("block 1 quiet -> r0", "line 1: this is block 0");
    wrong(
        "version 0.0() -> int\nblock 0 quiet -> r0\nregisters r0: int",
        "line 3: registers stand right after their version",
    );
    wrong(
        "version 0.0() -> int\nlevel staff\nregisters r0: int",
        "line 3: registers stand right after their version",
    );
    wrong(
        "version 0.0() -> int\nlevel tenant",
        "line 2: expected portal, staff or factory, found `tenant`",
    );
    wrong(
        "level 256",
        "line 1: expected portal, staff or factory, found `256`",
    );
    wrong(
        "level",
        "line 1: expected portal, staff or factory, found the end of the line",
    );
    wrong(
        "block 0 loud -> r0",
        "line 1: expected quiet or reflective, found `loud`",
    );
    let many = "block 0 quiet -> r0\n".to_string() + &"r0 = lit 0\n".repeat(256);
    wrong(&many, "line 1: 256 follow, and a count is at most 255");
}

#[test]
fn each_record_has_the_line_it_came_from() {
    let text = "# first\n\nversion 0.0(r0: int) -> int\n  registers r1: int\n\n  block 0 quiet -> r0\n    r1 = lit 3 # last\nbytes 01 02\n";
    let lined = text::assemble_lined(text).expect("a text that is well formed");
    assert_eq!(lined.lines, [(0, 3), (12, 6), (19, 7), (32, 8)]);
    assert_eq!(lined.image.len(), 34);
    assert_eq!(text::assemble(text), Ok(lined.image));
}
