//! Counts of what was met.

use std::borrow::Borrow;
use std::collections::BTreeMap;
use std::fmt;

/// How often each thing was met.
pub struct Tally<K: Ord>(BTreeMap<K, usize>);

impl<K: Ord> Default for Tally<K> {
    fn default() -> Tally<K> {
        Tally(BTreeMap::new())
    }
}

impl<K: Ord> Tally<K> {
    /// Meets a thing once more.
    pub fn meet(&mut self, thing: K) {
        *self.0.entry(thing).or_default() += 1;
    }

    /// Meets all that another met.
    pub fn add(&mut self, other: Tally<K>) {
        for (thing, count) in other.0 {
            *self.0.entry(thing).or_default() += count;
        }
    }

    /// How often a thing was met.
    pub fn count<Q: Ord + ?Sized>(&self, thing: &Q) -> usize
    where
        K: Borrow<Q>,
    {
        self.0.get(thing).copied().unwrap_or_default()
    }
}

impl<K: Ord + fmt::Debug> fmt::Display for Tally<K> {
    fn fmt(&self, formatter: &mut fmt::Formatter) -> fmt::Result {
        for (thing, count) in &self.0 {
            writeln!(formatter, "{count:>9}  {thing:?}")?;
        }
        Ok(())
    }
}
