//! Question 4: bounds and the order of records.

use crate::support::{accepts, refuses};

/// An identity version, 23 bytes long.
const IDENTITY: &str = "version 0.0(r0: int) -> int
                          block 0 quiet -> r0";

/// A version whose VERSION record alone is varied.
fn version_with(numbers: &str, registers: usize, keys: &str) -> String {
    let types: Vec<String> = (0..registers).map(|r| format!("r{r}: int")).collect();
    let registers = if types.is_empty() {
        String::new()
    } else {
        format!("registers {}", types.join(", "))
    };
    format!("version {numbers}() -> int {keys}\n{registers}\nblock 0 quiet -> r0\n r0 = lit 0")
}

/// An identity with this instruction, which begins at 23.
fn with_instruction(instruction: &str) -> String {
    format!("{IDENTITY}\n{instruction}")
}

#[test]
fn question4_function_32_is_out_of_bounds() {
    refuses(&version_with("32.0", 1, ""), 4, 0);
    refuses(&version_with("255.0", 1, ""), 4, 0);
}

#[test]
fn question4_version_4_is_out_of_bounds() {
    refuses(&version_with("0.4", 1, ""), 4, 0);
}

#[test]
fn question4_no_register_is_out_of_bounds() {
    refuses(&version_with("0.0", 0, ""), 4, 0);
}

#[test]
fn question4_16_registers_are_in_bounds_and_17_are_not() {
    accepts(&version_with("0.0", 16, ""));
    refuses(&version_with("0.0", 17, ""), 4, 0);
    refuses(&version_with("0.0", 255, ""), 4, 0);
}

#[test]
fn question4_8_parameters_are_in_bounds_and_9_are_not() {
    accepts(&version_with("0.0", 9, "parameters=8"));
    refuses(&version_with("0.0", 9, "parameters=9"), 4, 0);
}

#[test]
fn question4_more_parameters_than_registers_are_out_of_bounds() {
    refuses(&version_with("0.0", 2, "parameters=3"), 4, 0);
}

#[test]
fn question4_no_block_is_out_of_bounds() {
    refuses(&version_with("0.0", 1, "blocks=0"), 4, 0);
}

#[test]
fn question4_8_blocks_are_in_bounds_and_9_are_not() {
    let with_blocks = |blocks: u8| {
        let proms = (1..blocks).map(|block| format!("r1 = prom {block}\n"));
        let others = (1..blocks).map(|block| format!("block {block} quiet -> r0\n"));
        format!(
            "version 0.0(r0: int) -> int
               registers r1: quiet promise
               block 0 quiet -> r0
               {}{}",
            proms.collect::<String>(),
            others.collect::<String>()
        )
    };
    accepts(&with_blocks(8));
    refuses(&with_blocks(9), 4, 0);
}

#[test]
fn question4_64_versions_are_in_bounds_and_the_65th_fails_at_its_own_place() {
    let numbers = (0..32).flat_map(|f| [(f, 0), (f, 1)]);
    let versions = numbers.map(|(f, v)| IDENTITY.replace("0.0", &format!("{f}.{v}")) + "\n");
    let of_64: String = versions.collect();
    accepts(&of_64);
    let of_65 = of_64 + &IDENTITY.replace("0.0", "31.2");
    refuses(&of_65, 4, 64 * 23);
}

#[test]
fn question4_48_instructions_are_in_bounds_and_49_are_not() {
    accepts(&with_instruction(&"r0 = lit 0\n".repeat(48)));
    refuses(&with_instruction(&"r0 = lit 0\n".repeat(49)), 4, 16);
}

#[test]
fn question4_mark_2_of_a_block_is_out_of_bounds() {
    refuses(&IDENTITY.replace("quiet", "mark 2"), 4, 16);
}

#[test]
fn question4_mark_2_of_a_dispatch_is_out_of_bounds() {
    let dispatch = "r0 = dispatch 0(r0: int) -> int mark 2";
    refuses(&with_instruction(dispatch), 4, 23);
}

#[test]
fn question4_op_5_is_out_of_bounds() {
    accepts(&with_instruction("r0 = less r0, r0"));
    refuses(&with_instruction("r0 = arith 5 r0, r0"), 4, 23);
    refuses(&with_instruction("r0 = arith 255 r0, r0"), 4, 23);
}

#[test]
fn question4_n_9_is_out_of_bounds_though_the_length_fits() {
    let nine = ["r0"; 9].join(", ");
    refuses(&with_instruction(&format!("r0 = vec [{nine}]")), 4, 23);
    refuses(&with_instruction(&format!("r0 = call 0.0({nine})")), 4, 23);
    let nine = ["r0: int"; 9].join(", ");
    let dispatch = format!("r0 = dispatch 0({nine}) -> int quiet");
    refuses(&with_instruction(&dispatch), 4, 23);
}

#[test]
fn question4_n_8_is_in_bounds() {
    let parameters: Vec<String> = (0..8).map(|r| format!("r{r}: int")).collect();
    let parameters = parameters.join(", ");
    let body =
        |call: &str| format!("version 0.0({parameters}) -> int\nblock 0 quiet -> r0\n{call}");
    accepts(&body("r0 = call 0.0(r0, r1, r2, r3, r4, r5, r6, r7)"));
    accepts(&body(&format!(
        "r0 = dispatch 0({parameters}) -> int quiet"
    )));
    let eight = ["r0"; 8].join(", ");
    accepts(&format!(
        "version 0.0(r0: int) -> vector
           registers r1: vector
           block 0 quiet -> r1
             r1 = vec [{eight}]"
    ));
}

#[test]
fn question4_image_that_begins_with_no_version() {
    refuses("block 0 quiet -> r0", 4, 0);
    refuses("r0 = lit 0", 4, 0);
}

#[test]
fn question4_instruction_where_a_block_is_due() {
    let text = "version 0.0(r0: int) -> int\n r0 = lit 0\n block 0 quiet -> r0";
    refuses(text, 4, 16);
}

#[test]
fn question4_version_where_a_block_is_due() {
    let text = format!(
        "version 0.0(r0: int) -> int blocks=2
           block 0 quiet -> r0
         {IDENTITY}"
    );
    refuses(&text, 4, 23);
}

#[test]
fn question4_version_where_an_instruction_is_due() {
    let text = format!(
        "version 0.0(r0: int) -> int
           block 0 quiet -> r0 count=1
         {IDENTITY}"
    );
    refuses(&text, 4, 23);
}

#[test]
fn question4_block_where_an_instruction_is_due() {
    refuses(
        "version 0.0(r0: int) -> int
           block 0 quiet -> r0 count=1
           block 1 quiet -> r0",
        4,
        23,
    );
}

#[test]
fn question4_block_where_a_version_is_due() {
    refuses(
        "version 0.0(r0: int) -> int blocks=1
           block 0 quiet -> r0
           block 1 quiet -> r0",
        4,
        23,
    );
}

#[test]
fn question4_instruction_where_a_version_is_due() {
    refuses(
        "version 0.0(r0: int) -> int
           block 0 quiet -> r0 count=0
             r0 = lit 0",
        4,
        23,
    );
}

#[test]
fn question4_missing_block_is_at_the_image_length() {
    refuses("version 0.0(r0: int) -> int blocks=1", 4, 16);
    let text = "version 0.0(r0: int) -> int blocks=2\n block 0 quiet -> r0";
    refuses(text, 4, 23);
}

#[test]
fn question4_missing_instruction_is_at_the_image_length() {
    let text = "version 0.0(r0: int) -> int\n block 0 quiet -> r0 count=2\n r0 = lit 0";
    refuses(text, 4, 36);
}

#[test]
fn question4_first_failing_record_counts_whatever_part_it_fails() {
    let op_before_order = with_instruction("r0 = arith 9 r0, r0\nversion 0.9() -> int");
    refuses(&op_before_order, 4, 23);
    let order_before_op = "version 0.0(r0: int) -> int
           block 0 quiet -> r0 count=0
             r0 = lit 0
             r0 = arith 9 r0, r0";
    refuses(order_before_op, 4, 23);
}

#[test]
fn question4_is_put_to_the_whole_image_before_questions_5_6_and_7() {
    let text = "version 1.0(r0: 0x66) -> any\n block 0 quiet -> r9\n r7 = arith 5 r0, r0";
    refuses(text, 4, 23);
}
