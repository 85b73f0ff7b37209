//! What a long run reached: every kind it must reach, with its count.

use std::fmt;

/// Each kind and its name.
pub type Kinds<K> = &'static [(K, &'static str)];

/// Counts as they are printed, of kinds that must all be reached.
pub trait MustReach: fmt::Display {
    /// The names of the kinds never reached.
    fn never_reached(&self) -> Vec<String>;
}

#[derive(Clone, Debug, PartialEq, Eq)]
pub struct Tally<K: 'static> {
    kinds: Kinds<K>,
    counts: Vec<u64>,
}

impl<K: PartialEq> Tally<K> {
    pub fn of(kinds: Kinds<K>) -> Self {
        Tally {
            kinds,
            counts: vec![0; kinds.len()],
        }
    }

    pub fn add(&mut self, kind: K, times: u64) {
        for (count, (listed, _)) in self.counts.iter_mut().zip(self.kinds) {
            if *listed == kind {
                *count += times;
            }
        }
    }

    pub fn count(&self, kind: K) -> u64 {
        let mut listed = self.counts.iter().zip(self.kinds);
        listed
            .find(|(_, (listed, _))| *listed == kind)
            .map_or(0, |(count, _)| *count)
    }
}

impl<K> MustReach for Tally<K> {
    fn never_reached(&self) -> Vec<String> {
        let counted = self.counts.iter().zip(self.kinds);
        counted
            .filter(|(count, _)| **count == 0)
            .map(|(_, (_, name))| name.to_string())
            .collect()
    }
}

impl<K> fmt::Display for Tally<K> {
    fn fmt(&self, text: &mut fmt::Formatter<'_>) -> fmt::Result {
        for (count, (_, name)) in self.counts.iter().zip(self.kinds) {
            writeln!(text, "{count:>12}  {name}")?;
        }
        Ok(())
    }
}
