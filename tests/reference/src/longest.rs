//! "How long at most": what each version depends on, the most steps that a run of it
//! takes, and the order in which versions are listed.
//!
//! Bounds are found by a search from each version into the depth, the order by counting
//! for each version how many of those that it depends on are not listed yet.

use crate::bounds::Steps;
use crate::instruction::Instruction;
use crate::program::{Program, Version};
use crate::questions::Refusal;
use crate::search::fits;
use std::cmp::Reverse;
use std::collections::{BTreeSet, BinaryHeap};

/// The most steps that a run of a version takes.
#[derive(Clone, Copy, PartialEq, Eq, PartialOrd, Ord, Debug)]
pub enum Bound {
    /// So many.
    Steps(Steps),
    /// More than 4,294,967,295, which reads "large".
    Large,
    /// None is given: a chain of dependence from the version comes back to a version on
    /// the chain.
    None,
}

/// A version with its bound.
#[derive(Clone, Copy, PartialEq, Eq, Debug)]
pub struct Row {
    /// The function's number.
    pub function: u8,
    /// The version's number.
    pub version: u8,
    /// The bound.
    pub bound: Bound,
}

/// The rows of an image, or its refusal as it is.
pub fn bounds_of(image: &[u8]) -> Result<Vec<Row>, Refusal> {
    Program::accept(image).map(|program| rows(&program))
}

/// The rows of an accepted program: versions with a bound or "large" after those that
/// they depend on, lowest function, then lowest version, first among those free; then
/// those with none in order of number.
pub fn rows(program: &Program) -> Vec<Row> {
    let calls: Vec<Vec<Vec<usize>>> = program
        .versions
        .iter()
        .map(|version| calls(program, version))
        .collect();
    let mut search = Search {
        program,
        calls: &calls,
        found: vec![Found::Unseen; calls.len()],
    };
    let sums: Vec<Option<u128>> = (0..calls.len()).map(|index| search.sum(index)).collect();
    let row = |index: usize| {
        let head = &program.versions[index].head;
        Row {
            function: head.function,
            version: head.version,
            bound: read(sums[index]),
        }
    };
    listed(&calls, &sums).into_iter().map(row).collect()
}

/// The bound of a version of an accepted program, if there is such a version.
pub fn bound_of(program: &Program, function: usize, version: usize) -> Option<Bound> {
    let numbers = |row: &Row| (usize::from(row.function), usize::from(row.version));
    let mut rows = rows(program).into_iter();
    let row = rows.find(|row| numbers(row) == (function, version));
    row.map(|row| row.bound)
}

/// A sum as it reads.
fn read(sum: Option<u128>) -> Bound {
    match sum.map(Steps::try_from) {
        Some(Ok(steps)) => Bound::Steps(steps),
        Some(Err(_)) => Bound::Large,
        None => Bound::None,
    }
}

/// Which versions, by their places in the program, an instruction of a version may enter:
/// the one that a CALL names, by DISPATCH all that its signature and the version's level
/// allow, whatever the kinds of the arguments are.
pub fn may_enter(program: &Program, own: &Version, instruction: &Instruction) -> Vec<usize> {
    let all = program.versions.iter().enumerate();
    let entered = |version: &Version| match *instruction {
        Instruction::Call {
            function,
            version: number,
            ..
        } => (version.head.function, version.head.version) == (function, number),
        Instruction::Dispatch { function, .. } => {
            version.head.function == function
                && version.level <= own.level
                && program
                    .signature(instruction)
                    .is_some_and(|signature| fits(&version.signature(), &signature, &[]))
        }
        _ => false,
    };
    all.filter(|(_, version)| entered(version))
        .map(|(index, _)| index)
        .collect()
}

/// For each CALL and DISPATCH of a version, in all its blocks, what it may enter.
fn calls(program: &Program, own: &Version) -> Vec<Vec<usize>> {
    let instructions = own.blocks.iter().flat_map(|block| &block.instructions);
    let calls = instructions.filter(|placed| is_call(&placed.item));
    calls
        .map(|placed| may_enter(program, own, &placed.item))
        .collect()
}

/// Is it a CALL or a DISPATCH?
fn is_call(instruction: &Instruction) -> bool {
    matches!(
        instruction,
        Instruction::Call { .. } | Instruction::Dispatch { .. }
    )
}

/// What is known of a version.
#[derive(Clone, Copy)]
enum Found {
    Unseen,
    /// The search has come to it and has not left it.
    OnTheWay,
    /// Its sum, none where a chain comes back.
    Known(Option<u128>),
}

/// A search for sums.
struct Search<'p> {
    program: &'p Program,
    calls: &'p [Vec<Vec<usize>>],
    found: Vec<Found>,
}

impl Search<'_> {
    /// The sum of a version: its instructions and block ends in all blocks and, for each
    /// call, the largest that it may reach, 0 where nothing fits. A sum too large for the
    /// number stays at the largest one, which reads "large" too.
    fn sum(&mut self, index: usize) -> Option<u128> {
        match self.found[index] {
            Found::Known(sum) => return sum,
            Found::OnTheWay => return None,
            Found::Unseen => self.found[index] = Found::OnTheWay,
        }
        let mut sum = Some(own_steps(&self.program.versions[index]));
        for call in self.calls[index].iter() {
            let largest = call.iter().try_fold(0, |largest: u128, &entered| {
                Some(largest.max(self.sum(entered)?))
            });
            sum = sum.and_then(|sum: u128| Some(sum.saturating_add(largest?)));
        }
        self.found[index] = Found::Known(sum);
        sum
    }
}

/// The instructions and block ends of a version in all blocks.
pub fn own_steps(version: &Version) -> u128 {
    let blocks = version.blocks.iter();
    blocks
        .map(|block| block.instructions.len() as u128 + 1)
        .sum()
}

/// The places of versions in the order in which they are listed.
fn listed(calls: &[Vec<Vec<usize>>], sums: &[Option<u128>]) -> Vec<usize> {
    let needs = |index: usize| calls[index].iter().flatten().copied().collect();
    let needs: Vec<BTreeSet<usize>> = (0..calls.len()).map(needs).collect();
    let mut missing: Vec<usize> = needs.iter().map(BTreeSet::len).collect();
    let free = (0..calls.len()).filter(|&index| missing[index] == 0);
    let mut free: BinaryHeap<Reverse<usize>> = free.map(Reverse).collect();
    let mut listed = Vec::new();
    while let Some(Reverse(next)) = free.pop() {
        listed.push(next);
        for (index, needs) in needs.iter().enumerate() {
            if needs.contains(&next) {
                missing[index] -= 1;
                if missing[index] == 0 {
                    free.push(Reverse(index));
                }
            }
        }
    }
    let without = (0..sums.len()).filter(|&index| sums[index].is_none());
    listed.extend(without);
    listed
}
