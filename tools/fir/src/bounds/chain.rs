//! Chains of dependence that come back.

use reference::longest::may_enter;
use reference::program::{Program, Version};
use std::collections::{BTreeSet, VecDeque};

/// Which versions each version depends on, by their places in the program.
pub struct Dependence(Vec<BTreeSet<usize>>);

impl Dependence {
    /// That of a program.
    pub fn of(program: &Program) -> Dependence {
        let needs = |own: &Version| {
            let lines = own.blocks.iter().flat_map(|block| &block.instructions);
            lines
                .flat_map(|placed| may_enter(program, own, &placed.item))
                .collect()
        };
        Dependence(program.versions.iter().map(needs).collect())
    }

    /// The shortest chain from a version that comes back to a version on it; nothing
    /// where none does.
    pub fn returning(&self, from: usize) -> Vec<usize> {
        let chains = (0..self.0.len()).filter_map(|back| self.through(from, back));
        chains
            .min_by_key(|chain| (chain.len(), chain.clone()))
            .unwrap_or_default()
    }

    /// The shortest chain from a version to another, or to itself, and from there back.
    fn through(&self, from: usize, back: usize) -> Option<Vec<usize>> {
        let around = self.path(back, back)?;
        if from == back {
            return Some(around);
        }
        let mut chain = self.path(from, back)?;
        chain.extend(&around[1..]);
        Some(chain)
    }

    /// The shortest chain from a version to another, or to itself, of one link at least.
    fn path(&self, from: usize, to: usize) -> Option<Vec<usize>> {
        let mut before: Vec<Option<usize>> = vec![None; self.0.len()];
        let mut waiting = VecDeque::from([from]);
        while let Some(version) = waiting.pop_front() {
            for &next in &self.0[version] {
                if before[next].is_some() {
                    continue;
                }
                before[next] = Some(version);
                if next == to {
                    return Some(walked(&before, from, to));
                }
                waiting.push_back(next);
            }
        }
        None
    }
}

/// The chain from a version to another, by the version that stands before each.
fn walked(before: &[Option<usize>], from: usize, to: usize) -> Vec<usize> {
    let mut chain = vec![to];
    let mut at = before[to];
    while let Some(version) = at {
        chain.push(version);
        at = before[version].filter(|_| version != from);
    }
    chain.reverse();
    chain
}
