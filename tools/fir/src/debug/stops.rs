//! Breakpoints: where a run stops that is to go on, and on which condition.

use super::condition::{numbered, Condition, Operand};
use super::order::Target;
use super::session::Session;
use library::{Held, FIR_REGISTERS};
use reference::program::Version;
use text::Registers;

/// A breakpoint.
#[derive(Clone, Debug)]
pub struct Breakpoint {
    number: usize,
    target: Target,
    condition: Option<Condition>,
}

/// The breakpoints of a session, in the order of their numbers.
#[derive(Clone, Default, Debug)]
pub struct Stops {
    all: Vec<Breakpoint>,
    /// How many were ever set.
    set: usize,
}

impl Breakpoint {
    /// The line that lists it.
    fn line(&self) -> String {
        let (number, target) = (self.number, self.target);
        let condition = self.condition.as_ref();
        let condition = condition.map(|condition| format!(" if {condition}"));
        format!(
            "breakpoint {number}: {target}{}",
            condition.unwrap_or_default()
        )
    }
}

impl Stops {
    /// Is there none?
    pub fn is_empty(&self) -> bool {
        self.all.is_empty()
    }

    /// Sets one; the line that lists it.
    pub fn add(&mut self, target: Target, condition: Option<Condition>) -> String {
        self.set += 1;
        let breakpoint = Breakpoint {
            number: self.set,
            target,
            condition,
        };
        let line = breakpoint.line();
        self.all.push(breakpoint);
        line
    }

    /// Takes back one, or all where none is named; what to say of it.
    pub fn delete(&mut self, number: Option<u32>) -> String {
        let Some(number) = number else {
            self.all.clear();
            return "no breakpoint is set any more".to_string();
        };
        let before = self.all.len();
        self.all
            .retain(|breakpoint| breakpoint.number != number as usize);
        match self.all.len() < before {
            true => format!("breakpoint {number} is gone"),
            false => format!("there is no breakpoint {number}"),
        }
    }

    /// The lines that list all.
    pub fn lines(&self) -> Vec<String> {
        match self.all.is_empty() {
            true => vec!["no breakpoint is set".to_string()],
            false => self.all.iter().map(Breakpoint::line).collect(),
        }
    }

    /// The number of the first that a session has come to, by a step before which so many
    /// calls were live.
    pub fn hit(&self, session: &Session, calls: u8) -> Option<usize> {
        let call = session.call()?;
        let mut all = self.all.iter();
        let hit = all.find(|breakpoint| {
            let condition = breakpoint.condition.as_ref();
            session.came_to(breakpoint.target, calls)
                && condition.is_none_or(|condition| condition.holds(session, call))
        });
        hit.map(|breakpoint| breakpoint.number)
    }
}

impl Session {
    /// Sets a breakpoint, whose condition is about the registers of the version that it
    /// stands in; the line that lists it, or what is wrong with it.
    pub fn set_break(
        &mut self,
        target: Target,
        condition: Option<&Condition>,
    ) -> Result<String, String> {
        self.ask_there_is(target)?;
        if let (Some(condition), Some(version)) = (condition, self.version_of(target)) {
            let registers = self.source().registers(version);
            condition.ask_known(&|word| declared(version, registers, word))?;
        }
        Ok(self.stops.add(target, condition.cloned()))
    }

    /// The version that a target stands in.
    fn version_of(&self, target: Target) -> Option<&Version> {
        let program = self.script().program;
        match target {
            Target::Version(function, version) => program.version(function.into(), version.into()),
            Target::Line(line) => {
                let is_there = |offset: usize| self.source().line(offset) == Some(line);
                program.versions.iter().find(|version| {
                    let mut blocks = version.blocks.iter();
                    blocks.any(|block| {
                        let mut inside = block.instructions.iter();
                        is_there(block.offset) || inside.any(|placed| is_there(placed.offset))
                    })
                })
            }
        }
    }

    /// What a register or a name of a call holds, by its word.
    pub fn held(&self, call: usize, word: &str) -> Option<Held> {
        let registers = self.script().registers(self.state(), call);
        let place = place(registers, word)?;
        self.state().look(call, place)
    }

    /// Asks that the call that is worked on knows a word.
    pub fn ask_known(&self, word: &str) -> Result<usize, String> {
        let call = self.call().ok_or("no call is live")?;
        let owner = self.state().owner(call);
        let program = self.script().program;
        let version = owner.and_then(|(f, v)| program.version(f.into(), v.into()));
        let version = version.ok_or("no call is live")?;
        declared(version, self.source().registers(version), word)
    }

    /// Takes a step, and more until something holds another value in the call that is worked
    /// on, or that call has ended; what became of it.
    pub fn until_changed(&mut self, operand: &Operand) -> Option<String> {
        let call = self.call()?;
        let shown = |session: &Session| {
            let lives = usize::from(session.state().calls) > call;
            lives.then(|| operand.shown(session, call))
        };
        let before = shown(self);
        while self.advance() && shown(self) == before {}
        let words = |held: Option<String>| held.unwrap_or_else(|| "nothing".to_string());
        match (before, shown(self)) {
            (_, None) => Some("its call has ended".to_string()),
            (before, now) if before == now => None,
            (before, Some(now)) => {
                let (was, is) = (words(before.flatten()), words(now));
                Some(format!("{operand} was {was}, and is {is}"))
            }
        }
    }
}

/// The place of a register or a name, by its name in the text or its number.
fn place(registers: &Registers, word: &str) -> Option<usize> {
    numbered(word).or_else(|| registers.number(word).map(usize::from))
}

/// The same of a version, which declares it.
fn declared(version: &Version, registers: &Registers, word: &str) -> Result<usize, String> {
    let Some(place) = place(registers, word) else {
        let near = registers.nearest(word);
        let hint = near.map(|near| format!("; did you mean `{near}`?"));
        let hint = hint.unwrap_or_default();
        return Err(format!(
            "`{word}` is no register such as r3, and no name such as x0{hint}"
        ));
    };
    let head = &version.head;
    let count = head.types.len();
    if (count..FIR_REGISTERS).contains(&place) {
        let (function, number) = (head.function, head.version);
        let last = count.saturating_sub(1);
        return Err(format!(
            "{function}.{number} declares no {word}: its last register is r{last}"
        ));
    }
    Ok(place)
}
