//! Refused images that are hard to mend: of 64 versions with 16 registers each, all of which
//! are tried in vain.

use cases::image;
use reference::bounds::{BLOCKS, INSTRUCTIONS, VERSIONS, VERSIONS_EACH};

/// What the instructions of a long version are.
#[derive(Clone, Copy, PartialEq, Eq, Debug)]
pub enum Long {
    /// CALLs of eight operands.
    Calls,
    /// DISPATCHes of eight operands.
    Dispatches,
    /// CALLs of eight operands, and SKIPs of all that follows in their block.
    Skips,
}

/// The numbers of the version of an index.
fn numbers(index: usize) -> String {
    format!("{}.{}", index / VERSIONS_EACH, index % VERSIONS_EACH)
}

/// Registers of a type from one number to another, with commas between.
fn registers(from: usize, to: usize, ty: &str) -> String {
    let registers = (from..to).map(|register| format!("r{register}: {ty}"));
    registers.collect::<Vec<_>>().join(", ")
}

/// A version that is called, with eight parameters of a type.
fn called(index: usize, ty: &str) -> String {
    format!(
        "version {}({}) -> int\nregisters {}\nblock 0 quiet -> r15\nr15 = lit 1\n",
        numbers(index),
        registers(0, 8, ty),
        registers(8, 16, "int")
    )
}

/// An instruction of a long version.
fn line(long: Long, index: usize, ty: &str) -> String {
    let callee = numbers(1 + index % (VERSIONS - 1));
    match long {
        Long::Dispatches => {
            let typed = registers(0, 8, ty);
            format!("r13 = dispatch 1({typed}) -> int quiet\n")
        }
        _ => format!("r13 = call {callee}(r0, r1, r2, r3, r4, r5, r6, r7)\n"),
    }
}

/// An image that 10 refuses: its first version has 384 instructions, most of them calls with
/// eight operands that are owned or shared, and gives a register that nothing assigns.
pub fn unassigned(long: Long, owned: bool) -> Vec<u8> {
    let (own, lent) = match owned {
        true => ("own vector", "borrow vector"),
        false => ("vector", "vector"),
    };
    let mut text = format!(
        "version 0.0({}) -> int\nregisters {}, r13: int, r14: quiet promise, r15: int\n",
        registers(0, 8, own),
        registers(8, 13, own)
    );
    for block in 0..BLOCKS {
        let result = if block == 0 { 15 } else { 13 };
        text += &format!("block {block} quiet -> r{result}\n");
        let promises = (1..BLOCKS).filter(|_| block == 0);
        let promises: Vec<String> = promises.map(|b| format!("r14 = prom {b}\n")).collect();
        let count = INSTRUCTIONS - promises.len();
        text += &promises.concat();
        for place in 0..count {
            let left = count - place - 1;
            text += &match long == Long::Skips && place % 2 == 1 && left > 0 {
                true => format!("skip {left} unless r13\n"),
                false => line(long, block * INSTRUCTIONS + place, lent),
            };
        }
    }
    text += &(1..VERSIONS)
        .map(|index| called(index, lent))
        .collect::<String>();
    image(&text)
}

/// An image of 64 versions whose last one ends with these instructions, all others with
/// arithmetic; its registers r0 to r7 are integers, r8 to r11 reflective promises, r12 to
/// r14 quiet ones.
fn ending(ending: &str) -> Vec<u8> {
    let count = ending.lines().count();
    let version = |index: usize| {
        let last = index + 1 == VERSIONS;
        let plain = "r0 = add r0, r1\n".repeat(INSTRUCTIONS - if last { count } else { 0 });
        format!(
            "version {}({}) -> int\nregisters {}, {}, r15: int\nblock 0 quiet -> r0\n{plain}{}",
            numbers(index),
            registers(0, 8, "int"),
            registers(8, 12, "reflective promise"),
            registers(12, 15, "quiet promise"),
            if last { ending } else { "" }
        )
    };
    image(&(0..VERSIONS).map(version).collect::<String>())
}

/// An image that 8 refuses at its last instruction, a call of eight operands of which the
/// last does not fit; what would make it fit breaks other instructions.
pub fn misfit() -> Vec<u8> {
    ending("r15 = force r12\nr0 = call 0.0(r0, r1, r2, r3, r4, r5, r6, r12)\n")
}

/// An image that 9 refuses at its last block, which forces two reflective promises.
pub fn uncovered() -> Vec<u8> {
    ending("r15 = force r8\nr15 = force r9\n")
}
