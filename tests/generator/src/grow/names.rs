//! NAMED, STORE, PEEK and POKE.

use super::registers::Gives;
use super::Body;
use crate::fact::Fact;
use reference::bounds::NAMES;
use reference::{Instruction, Kind, Mark, Name, Register};

impl Body<'_> {
    /// A NAMED of a name that is expected to be set.
    pub(super) fn named(&mut self) -> Option<()> {
        let x = self.name_of(self.own_names())?;
        let d = self.target(Gives::Plain(Kind::VALUE))?;
        let fact = self.here.names[usize::from(x)].unwrap_or(Fact::Unknown);
        self.emit(Instruction::Named { d, x }, fact);
        Some(())
    }

    /// A STORE to any name.
    pub(super) fn store(&mut self) -> Option<()> {
        let a = self.shared(Kind::VALUE)?;
        let x = self.random.below(NAMES) as Name;
        self.emit(Instruction::Store { x, a }, Fact::Unknown);
        self.here.names[usize::from(x)] = Some(self.fact(a));
        Some(())
    }

    /// A PEEK of a name that is expected to be set, in a reflective block.
    pub(super) fn peek(&mut self) -> Option<()> {
        self.reflective()?;
        let a = self.promise(Kind::REFLECTIVE)?;
        let x = self.name_of(self.names_of(a))?;
        let d = self.target(Gives::Plain(Kind::VALUE))?;
        self.emit(Instruction::Peek { d, a, x }, Fact::Unknown);
        Some(())
    }

    /// A POKE to any name, in a reflective block.
    pub(super) fn poke(&mut self) -> Option<()> {
        self.reflective()?;
        let a = self.promise(Kind::REFLECTIVE)?;
        let e = self.shared(Kind::VALUE)?;
        let x = self.random.below(NAMES) as Name;
        self.emit(Instruction::Poke { a, x, e }, Fact::Unknown);
        match &mut self.here.facts[usize::from(a)] {
            Fact::Promise { own: true, .. } => {
                self.here.names[usize::from(x)] = Some(self.fact(e));
            }
            Fact::Promise { names, .. } => *names |= 1 << x,
            _ => {}
        }
        Some(())
    }

    /// May the block have reflective effects?
    pub(super) fn reflective(&self) -> Option<()> {
        (self.blocks[self.here.block].mark == Mark::REFLECTIVE).then_some(())
    }

    /// The names of the own frame that are set, one bit each.
    fn own_names(&self) -> u8 {
        let names = self.here.names.iter().enumerate();
        names.fold(0, |set, (x, name)| set | u8::from(name.is_some()) << x)
    }

    /// The names of a promise's frame that are expected to be set, one bit each.
    fn names_of(&self, promise: Register) -> u8 {
        match self.fact(promise) {
            Fact::Promise { own: true, .. } => self.own_names(),
            Fact::Promise { names, .. } => names,
            _ => 0,
        }
    }

    /// One of the names that are set; rarely any other.
    fn name_of(&mut self, set: u8) -> Option<Name> {
        let names: Vec<Name> = (0..NAMES as Name).filter(|x| set >> x & 1 == 1).collect();
        if self.random.one_in(60) {
            return Some(self.random.below(NAMES) as Name);
        }
        self.random.choose(&names)
    }
}
