//! A set of registers of one version.

use reference::Register;

/// A set of registers below 16.
#[derive(Clone, Copy, Default, PartialEq, Eq, Debug)]
pub struct Registers(u16);

impl Registers {
    /// The registers below a number.
    pub fn below(number: usize) -> Registers {
        let mut set = Registers::default();
        (0..number).for_each(|register| set.insert(register as Register));
        set
    }

    /// Is the register in the set?
    pub fn contains(self, register: Register) -> bool {
        self.0 >> register & 1 == 1
    }

    /// Adds a register.
    pub fn insert(&mut self, register: Register) {
        self.0 |= 1 << register;
    }

    /// Takes a register away.
    pub fn remove(&mut self, register: Register) {
        self.0 &= !(1 << register);
    }

    /// The registers in either set.
    pub fn union(self, other: Registers) -> Registers {
        Registers(self.0 | other.0)
    }

    /// The registers in both sets.
    pub fn intersection(self, other: Registers) -> Registers {
        Registers(self.0 & other.0)
    }

    /// The registers in order.
    pub fn iter(self) -> impl Iterator<Item = Register> {
        (0..16).filter(move |&register| self.contains(register))
    }
}
