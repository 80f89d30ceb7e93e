//! Chains of CALLs whose first version takes exactly a given number of steps.

use crate::draft::{Draft, DraftBlock, DraftVersion};
use reference::{Instruction, Level, Mark, Type};

/// How often each version of the chain calls the next one, and the fewest steps of such a
/// one; below them it calls it twice.
const CALLS: u64 = 24;
const FEWEST: u64 = 1 + CALLS * 3;
const TWICE: u64 = 2;

/// The most steps of the last version: its instructions and its block end.
const LAST: u64 = 49;

/// An image whose run of 0.0, without an argument, takes exactly so many steps, at least
/// 2, and whose bound is that number: each function calls the next one 24 times, so that
/// m literals and these calls take m + 24 × (1 + the steps of the next) and the block end.
pub fn exact(steps: u64) -> Vec<u8> {
    let (mut draft, mut left) = (Draft::default(), steps.max(2));
    while left > LAST {
        let calls = if left < FEWEST { TWICE } else { CALLS };
        let literals = (left - 1) % calls;
        add(&mut draft, literals, calls);
        left = (left - 1) / calls - 1;
    }
    add(&mut draft, left - 1, 0);
    draft.bytes()
}

/// Adds a function of so many literals, which calls the next one so often.
fn add(draft: &mut Draft, literals: u64, calls: u64) {
    let function = draft.versions.len() as u8;
    let literal = Instruction::Lit { d: 0, value: 7 };
    let call = Instruction::Call {
        d: 0,
        function: function + 1,
        version: 0,
        arguments: vec![],
    };
    let mut instructions = vec![literal; literals as usize];
    instructions.extend(vec![call; calls as usize]);
    draft.versions.push(DraftVersion {
        function,
        version: 0,
        parameters: 0,
        returns: Type::INTEGER,
        types: vec![Type::INTEGER],
        level: Level::PORTAL,
        blocks: vec![DraftBlock {
            mark: Mark::QUIET,
            result: 0,
            instructions,
        }],
    });
}
