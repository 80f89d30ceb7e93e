//! What a bound is made of: the version's own steps, and each of its calls.

use super::{json, words};
use crate::json::Json;
use crate::number::many;
use crate::place::{place, version_name};
use crate::source::Source;
use library::Bound;
use reference::longest::may_enter;
use reference::program::{Program, Version};
use reference::record::Placed;
use reference::Instruction;

/// What a bound is made of.
pub struct Made<'s> {
    source: &'s Source,
    instructions: usize,
    block_ends: usize,
    calls: Vec<Call>,
}

/// A CALL or a DISPATCH.
struct Call {
    offset: usize,
    /// What it is: `CALL of 1.0`, `DISPATCH on 1`.
    name: String,
    /// The versions that it may reach, with their bounds.
    reached: Vec<(String, Bound)>,
}

impl<'s> Made<'s> {
    /// What the bound of a version is made of, by the bounds of all.
    pub fn of(
        source: &'s Source,
        program: &Program,
        own: &Version,
        bound: &dyn Fn(usize) -> Bound,
    ) -> Made<'s> {
        let lines = own.blocks.iter().flat_map(|block| &block.instructions);
        let call = |placed: &Placed<Instruction>| {
            let reached = may_enter(program, own, &placed.item).into_iter();
            let named = |index: usize| (version_name(&program.versions[index]), bound(index));
            Some(Call {
                offset: placed.offset,
                name: name(&placed.item)?,
                reached: reached.map(named).collect(),
            })
        };
        Made {
            source,
            instructions: lines.clone().count(),
            block_ends: own.blocks.len(),
            calls: lines.filter_map(call).collect(),
        }
    }

    /// The lines of it, behind an indent.
    pub fn lines(&self) -> Vec<String> {
        let (instructions, ends) = (self.instructions, self.block_ends);
        let own = format!(
            "  {} of its own: {} and {}",
            instructions + ends,
            many(instructions, "instruction"),
            many(ends, "block end")
        );
        let calls = self.calls.iter().map(|call| call.line(self.source));
        [own].into_iter().chain(calls).collect()
    }

    /// The same as an object.
    pub fn json(&self) -> Json {
        let calls = self.calls.iter().map(|call| call.json(self.source));
        Json::Object(vec![
            ("instructions", self.instructions.into()),
            ("block_ends", self.block_ends.into()),
            ("calls", calls.collect()),
        ])
    }
}

impl Call {
    /// The largest bound that it may reach, 0 steps where nothing fits: none weighs more
    /// than a large one, and that more than steps.
    fn largest(&self) -> Bound {
        let weight = |bound: &Bound| match bound {
            Bound::Steps(steps) => (0, *steps),
            Bound::Large => (1, 0),
            Bound::None => (2, 0),
        };
        let bounds = self.reached.iter().map(|&(_, bound)| bound);
        bounds.max_by_key(weight).unwrap_or(Bound::Steps(0))
    }

    /// The line: `  9 at 187 (line 46): DISPATCH on 1, the largest of 1.0 9 steps, 1.1 2
    /// steps`.
    fn line(&self, source: &Source) -> String {
        let largest = match self.largest() {
            Bound::Steps(steps) => steps.to_string(),
            other => words(other),
        };
        let (at, name) = (place(source, self.offset), &self.name);
        let reached = self.reached.iter();
        let reached = reached.map(|(version, bound)| format!("{version} {}", words(*bound)));
        let reached: Vec<String> = reached.collect();
        match &reached[..] {
            [] => format!("  {largest} at {at}: {name}, which nothing fits"),
            [one] => format!("  {largest} at {at}: {name}, that is {one}"),
            many => format!(
                "  {largest} at {at}: {name}, the largest of {}",
                many.join(", ")
            ),
        }
    }

    /// The call as an object.
    fn json(&self, source: &Source) -> Json {
        let reached = self.reached.iter().map(|(version, bound)| {
            Json::Object(vec![
                ("version", version.as_str().into()),
                ("bound", json(*bound)),
            ])
        });
        let mut fields = vec![("offset", Json::from(self.offset))];
        fields.extend(Json::position(source.position(self.offset)));
        fields.push(("call", self.name.as_str().into()));
        fields.push(("largest", json(self.largest())));
        fields.push(("reaches", reached.collect()));
        Json::Object(fields)
    }
}

/// What a CALL or a DISPATCH is; none for other instructions.
fn name(instruction: &Instruction) -> Option<String> {
    match *instruction {
        Instruction::Call {
            function, version, ..
        } => Some(format!("CALL of {function}.{version}")),
        Instruction::Dispatch { function, .. } => Some(format!("DISPATCH on {function}")),
        _ => None,
    }
}
