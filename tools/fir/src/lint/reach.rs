//! Which versions runs come to.

use super::{instructions, named, Finding};
use library::Entry;
use reference::longest::may_enter;
use reference::program::Program;
use reference::Instruction;

/// The versions of a program by how runs come to them, by their places in it.
pub struct Reach<'p> {
    program: &'p Program,
    /// Those that runs enter.
    entries: Vec<bool>,
    /// Were they named, so that function 0 was not taken for granted?
    named: bool,
    /// Those that runs come to, the entries among them.
    reached: Vec<bool>,
}

impl<'p> Reach<'p> {
    /// That of runs which enter these versions; all of function 0 where none is named.
    pub fn new(program: &'p Program, entries: &[Entry]) -> Reach<'p> {
        let enters = |function: u8, version: u8| {
            let numbers = (usize::from(function), usize::from(version));
            let mut named = entries.iter();
            match entries.is_empty() {
                true => function == 0,
                false => named.any(|entry| (entry.function, entry.version) == numbers),
            }
        };
        let named = !entries.is_empty();
        let heads = program.versions.iter().map(|version| &version.head);
        let entries: Vec<bool> = heads
            .map(|head| enters(head.function, head.version))
            .collect();
        let mut reach = Reach {
            program,
            reached: vec![false; entries.len()],
            entries,
            named,
        };
        for index in 0..reach.entries.len() {
            if reach.entries[index] {
                reach.follow(index);
            }
        }
        reach
    }

    /// Notes that runs come to a version, and to those that it calls.
    fn follow(&mut self, index: usize) {
        if self.reached[index] {
            return;
        }
        self.reached[index] = true;
        let version = &self.program.versions[index];
        for (_, placed) in instructions(version) {
            for next in may_enter(self.program, version, &placed.item) {
                self.follow(next);
            }
        }
    }

    /// Do CALLs alone enter a version, so that its signature is free?
    pub fn called_only(&self, index: usize) -> bool {
        let function = self.program.versions[index].head.function;
        let mut all = self.program.versions.iter().flat_map(instructions);
        let dispatched = all.any(|(_, placed)| match placed.item {
            Instruction::Dispatch { function: to, .. } => to == function,
            _ => false,
        });
        self.reached[index] && !self.entries[index] && !dispatched
    }

    /// The versions that no run comes to.
    pub fn uncalled(&self) -> Vec<Finding> {
        let versions = self.program.versions.iter().zip(&self.reached);
        let uncalled = versions.filter(|(_, reached)| !**reached);
        let from = match self.named {
            true => "",
            false => "; runs enter function 0, or what --entry names",
        };
        let finding = |version| {
            let words = format!("no run comes to {}{from}", named(version));
            Finding::at("uncalled", version.offset, words)
        };
        uncalled.map(|(version, _)| finding(version)).collect()
    }
}
